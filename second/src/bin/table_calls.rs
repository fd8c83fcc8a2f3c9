//! Prints the stored calls for the check of a table.

#![forbid(unsafe_code)]

use std::io::{stdout, Write};

fn main() -> std::io::Result<()> {
    stdout().write_all(second::table_calls::stored().as_bytes())
}
