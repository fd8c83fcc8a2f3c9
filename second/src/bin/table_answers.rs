//! Reads calls for the check of a table from standard input and prints their answers.

#![forbid(unsafe_code)]

use std::io::{stdin, stdout, Read, Write};

fn main() -> std::io::Result<()> {
    let mut input = Vec::new();
    stdin().read_to_end(&mut input)?;
    stdout().write_all(second::table_calls::answers(&input).as_bytes())
}
