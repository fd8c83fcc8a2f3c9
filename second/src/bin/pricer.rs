//! Reads an order from standard input and prints what its sheet costs, by the price list that the
//! arguments are: pence per run, pence for a changed level in each column, and the discount; or the
//! refusal.

#![forbid(unsafe_code)]

use std::io::{stdin, stdout, Read, Write};
use std::os::unix::ffi::OsStringExt;

fn main() -> std::io::Result<()> {
    let mut input = Vec::new();
    stdin().read_to_end(&mut input)?;
    let words = std::env::args_os().skip(1);
    let arguments: Vec<Vec<u8>> = words.map(OsStringExt::into_vec).collect();
    stdout().write_all(second::charges::print_charge(&input, &arguments).as_bytes())
}
