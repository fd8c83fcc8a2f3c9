//! Whether a sheet that is handed in is one; 02, K3.

pub const MOST_RUNS: usize = 512;
pub const MOST_COLUMNS: usize = 128;

pub fn is_a_sheet(table: &[u8], levels: &[u8], runs: usize, columns: usize) -> bool {
    is_within_limits(table, levels, runs, columns)
        && all_below(&table[..runs * columns], &levels[..columns])
}

/// All of it but the entries: the size, the level counts, and that table and level list are long
/// enough.
pub fn is_within_limits(table: &[u8], levels: &[u8], runs: usize, columns: usize) -> bool {
    (1..=MOST_RUNS).contains(&runs)
        && (1..=MOST_COLUMNS).contains(&columns)
        && levels.len() >= columns
        && table.len() >= runs * columns
        && each_is_a_count(&levels[..columns])
}

/// Without a way out in the middle, so that it is done many at a time.
fn each_is_a_count(levels: &[u8]) -> bool {
    let counts = levels.iter().map(|level| (2..=64).contains(level));
    counts.fold(true, |all, is_one| all & is_one)
}

/// Compares as many runs at a time as have up to 256 entries, with the level counts for all of them
/// laid out: so the comparison takes many entries at once, also where a run has few.
fn all_below(entries: &[u8], levels: &[u8]) -> bool {
    let mut laid_out = [0; 256];
    let length = (256 / levels.len() * levels.len()).min(entries.len());
    for limits in laid_out[..length].chunks_exact_mut(levels.len()) {
        limits.copy_from_slice(levels);
    }
    let limits = &laid_out[..length];
    entries.chunks(length).all(|part| each_below(part, limits))
}

/// Without a way out in the middle, as above.
pub fn each_below(entries: &[u8], limits: &[u8]) -> bool {
    let pairs = entries.iter().zip(limits);
    pairs.fold(true, |below, (entry, limit)| below & (entry < limit))
}
