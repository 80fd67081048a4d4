//! What `cdrname` does, by the second reader and writer of names: lines on standard input, answers
//! on standard output. It stands in for the proved program when `compare_names` itself is tested.

use leveehum::cdrname;
use std::io::{self, Read, Write};

fn main() -> io::Result<()> {
    let mut input = Vec::new();
    io::stdin().read_to_end(&mut input)?;
    io::stdout().write_all(&cdrname::run(&input))
}
