//! Prints the stored calls for charges.

#![forbid(unsafe_code)]

use std::io::{stdout, Write};

fn main() -> std::io::Result<()> {
    stdout().write_all(second::charge_calls::stored().as_bytes())
}
