//! Sums and differences of the field of nine elements, looked up.

/// By 16 times the first plus the second, so that every index of eight bits is in range.
type ByTwo = [u8; 256];

static SUMS: ByTwo = first_plus(1);
/// Minus one is plus two.
static DIFFERENCES: ByTwo = first_plus(2);

pub fn sum(x: u8, y: u8) -> u8 {
    SUMS[usize::from(16 * x + y)]
}

/// The first minus the second.
pub fn difference(x: u8, y: u8) -> u8 {
    DIFFERENCES[usize::from(16 * x + y)]
}

/// The first plus so many times the second, digit by digit in base 3.
const fn first_plus(times: usize) -> ByTwo {
    let mut table = [0; 256];
    let mut place = 0;
    while place < 256 {
        let (x, y) = (place / 16, place % 16);
        let low = (x + times * y) % 3;
        let high = (x / 3 + times * (y / 3)) % 3;
        table[place] = (low + 3 * high) as u8;
        place += 1;
    }
    table
}
