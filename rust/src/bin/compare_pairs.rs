//! Compares the proved call that holds two files together with the second one, in one process, on pairs
//! of every kind from a fixed seed. Prints one line of counts, or the first difference and the two
//! files. The programs are compared by `compare_diffs`.

use leveehum::pairs;
use leveehum::program::tell;
use leveehum::proved;
use std::process::ExitCode;

const SEED: u64 = 0x3229_7000_2026_0009;
/// The fewest pairs that a run must have compared.
const LEAST_PAIRS: usize = 20_000;

fn main() -> ExitCode {
    // The main thread's stack has room for the call's arrays.
    tell(pairs::compare(SEED, LEAST_PAIRS, proved::reconcile))
}
