//! Reads a table from standard input and prints whether it passes, or its refusal, then its gap and how
//! many pairs of columns were counted.

#![forbid(unsafe_code)]

use std::io::{stdin, stdout, Read, Write};

fn main() -> std::io::Result<()> {
    let mut input = Vec::new();
    stdin().read_to_end(&mut input)?;
    stdout().write_all(second::checker::print_check(&input).as_bytes())
}
