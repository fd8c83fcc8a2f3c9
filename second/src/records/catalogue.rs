//! The papers' arrays: the order files of a directory, with their answers.

use super::Records;
use crate::LEAST;
use std::io::Result;
use std::path::{Path, PathBuf};

/// A text of records for the order files of a directory, by name.
pub fn catalogue(directory: &Path) -> Result<String> {
    let mut records = Records::headed(
        "The papers' arrays by file of orders/, and what the second implementation answers; made in second/ by: cargo run --offline --release --bin catalogue_records ../orders",
    );
    for path in order_files(directory)? {
        let order = std::fs::read_to_string(&path)?;
        let name = path.file_name().expect("a file has a name");
        records.remark(&name.to_string_lossy());
        // A record has its order on one line.
        records.record(
            &order.split_whitespace().collect::<Vec<_>>().join(" "),
            LEAST,
        );
    }
    Ok(records.text)
}

fn order_files(directory: &Path) -> Result<Vec<PathBuf>> {
    let mut paths = Vec::new();
    for entry in std::fs::read_dir(directory)? {
        let path = entry?.path();
        if path.extension().is_some_and(|extension| extension == "txt") {
            paths.push(path);
        }
    }
    paths.sort();
    Ok(paths)
}
