//! Prints the stored calls for pages.

#![forbid(unsafe_code)]

use std::io::{stdout, Write};

fn main() -> std::io::Result<()> {
    stdout().write_all(second::page_calls::stored().as_bytes())
}
