//! What the texts of calls share in which a sheet is handed in.

use crate::scan;

/// A table of so many bytes: the pattern over and over, and zeros if it is empty.
pub fn over_and_over(pattern: &[u8], length: usize) -> Vec<u8> {
    match pattern {
        [] => vec![0; length],
        pattern => pattern.iter().copied().cycle().take(length).collect(),
    }
}

/// How many bytes there are, and the bytes.
pub fn counted(bytes: &[u8]) -> Vec<usize> {
    let numbers = bytes.iter().map(|&byte| byte.into());
    [bytes.len()].into_iter().chain(numbers).collect()
}

/// The calls of a text. One is read by a function that is given what hands out the text's numbers.
pub fn read_calls<Call>(text: &[u8], read: fn(&mut dyn FnMut() -> usize) -> Call) -> Vec<Call> {
    let list = scan(text).expect("a text of calls has decimal numbers alone, and not too many");
    let mut numbers = list.into_iter().map(usize::from).peekable();
    let mut calls = Vec::new();
    while numbers.peek().is_some() {
        calls.push(read(&mut || numbers.next().expect("no call is cut off")));
    }
    calls
}

/// Bytes with their number before them.
pub fn read_counted(next: &mut dyn FnMut() -> usize) -> Vec<u8> {
    let length = next();
    let byte = |number| u8::try_from(number).expect("level counts and entries are bytes");
    (0..length).map(|_| byte(next())).collect()
}
