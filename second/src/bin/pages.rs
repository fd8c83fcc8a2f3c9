//! Reads an order from standard input and prints all pages of its sheet, or the one that the first
//! argument names, or the refusal.

#![forbid(unsafe_code)]

use std::io::{stdin, stdout, Read, Write};

fn main() -> std::io::Result<()> {
    let mut input = Vec::new();
    stdin().read_to_end(&mut input)?;
    let argument = std::env::args_os().nth(1);
    let argument = argument.as_ref().map(|word| word.as_encoded_bytes());
    stdout().write_all(second::pages::print_pages(&input, argument).as_bytes())
}
