//! Reads an order from standard input and prints the runs or the refusal.

#![forbid(unsafe_code)]

use std::io::{stdin, stdout, Read, Write};

fn main() -> std::io::Result<()> {
    let mut input = Vec::new();
    stdin().read_to_end(&mut input)?;
    let answer = second::plan_text(&input, second::LEAST);
    stdout().write_all(second::print(&answer).as_bytes())
}
