//! Prints the order files of the directory that is named as a text of records.

#![forbid(unsafe_code)]

use std::io::{stdout, Write};
use std::path::Path;

fn main() -> std::io::Result<()> {
    let directory = std::env::args()
        .nth(1)
        .expect("the directory of the order files");
    stdout().write_all(second::records::catalogue(Path::new(&directory))?.as_bytes())
}
