//! Prints the examples as a text of records.

#![forbid(unsafe_code)]

use std::io::{stdout, Write};

fn main() -> std::io::Result<()> {
    stdout().write_all(second::records::examples().as_bytes())
}
