//! What `cdrgate` does, by the plain manager: a script on standard input, answers on standard
//! output. It stands in for the proved program when `replay` itself is tested.

use leveehum::gate;
use std::io::{self, Read, Write};

fn main() -> io::Result<()> {
    let mut script = Vec::new();
    io::stdin().read_to_end(&mut script)?;
    io::stdout().write_all(&gate::replay(&script))
}
