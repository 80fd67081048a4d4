//! The other-language side of Leveehum: a second reader and writer of TS 32.297 files and a plain
//! manager, the proved ones beside them, and the files, inputs and scripts on which they are
//! compared.

pub mod audit;
pub mod bounds;
pub mod cdrcopy;
pub mod cdrdiff;
pub mod cdrlist;
pub mod cdrname;
pub mod cdrshow;
pub mod counts;
pub mod dates;
pub mod draft;
pub mod faults;
pub mod fields;
pub mod files;
pub mod forge;
pub mod full;
pub mod gate;
pub mod inputs;
pub mod manager;
pub mod name;
pub mod names;
pub mod packet;
pub mod packet_trials;
pub mod pairs;
pub mod program;
#[cfg(feature = "proved")]
pub mod proved;
pub mod random;
pub mod reconcile;
pub mod scripts;
pub mod second;
pub mod settings;
pub mod states;
pub mod timing;
pub mod trials;
pub mod words;
