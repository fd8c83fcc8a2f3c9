//! Reads calls for charges from standard input and prints their answers.

#![forbid(unsafe_code)]

use std::io::{stdin, stdout, Read, Write};

fn main() -> std::io::Result<()> {
    let mut input = Vec::new();
    stdin().read_to_end(&mut input)?;
    stdout().write_all(second::charge_calls::answers(&input).as_bytes())
}
