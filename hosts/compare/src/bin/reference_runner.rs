//! The Rust call runner as a program: a script on standard input, the answers on standard output.
use std::io::{self, BufWriter};

fn main() -> io::Result<()> {
    reference::script::run(io::stdin().lock(), BufWriter::new(io::stdout().lock()))
}
