//! The program's words in, and printed runs out.

use crate::{refused, Answer};
use std::fmt::Display;

/// The numbers that the words of an input are, or the refusal of the first word that cannot be
/// taken.
pub fn scan(bytes: &[u8]) -> Result<Vec<u16>, Answer> {
    let mut list = Vec::new();
    let pieces = bytes.split(|byte| [b' ', b'\t', b'\n'].contains(byte));
    let words = pieces.filter(|piece| !piece.is_empty());
    for (place, word) in words.enumerate() {
        match decimal(word) {
            Some(number) if place < 32_768 => list.push(number),
            _ => return Err(refused(2, &[place])),
        }
    }
    Ok(list)
}

/// The number up to 65,535 that a word of decimal digits is.
fn decimal(word: &[u8]) -> Option<u16> {
    let mut value: u32 = 0;
    for byte in word {
        if !byte.is_ascii_digit() {
            return None;
        }
        value = 10 * value + u32::from(byte - b'0');
        if value > 65_535 {
            return None;
        }
    }
    Some(value as u16)
}

/// What the program prints for an answer.
pub fn print(answer: &Answer) -> String {
    match answer {
        Answer::Filled {
            runs,
            levels,
            spare,
            table,
        } => {
            let columns = levels.len();
            let mut text = format!("{runs} {columns} {spare}\n{}\n", spaced(levels));
            for run in table.chunks(columns) {
                text += &spaced(run);
                text += "\n";
            }
            text
        }
        Answer::Refused { number, details } => format!("refused {number} {}\n", spaced(details)),
    }
}

/// The numbers with single spaces between.
pub(crate) fn spaced(numbers: &[impl Display]) -> String {
    let words: Vec<String> = numbers.iter().map(|number| number.to_string()).collect();
    words.join(" ")
}
