//! Vapour pressure over the dew point, hundredths of hPa: the table of 1001 entries, by its recurrence (document 01),
//! written to a lent slice (document 02, S-1) and, for the lookup, kept as whole entries and differences (S-4).

const SCALE: u64 = 100_000_000;

/// One entry for each dew point from −500 to 500 tenths of °C.
pub const LENGTH: usize = 1001;

/// Places from one whole entry to the next.
pub const SPACING: usize = 16;

/// The entries at −500, −484, .. 492.
pub static WHOLE: [u16; 63] = whole();

/// At all other places, the entry less the one before it.
pub static DIFFERENCES: [u8; 938] = differences();

/// The place of a dew point in the table, if it has one.
pub fn place(t: i32) -> Option<usize> {
    usize::try_from(t + 500).ok().filter(|&place| place < LENGTH)
}

/// The entry at a dew point or, for a humidity, at T; missing outside the table.
pub fn pressure(t: i32) -> Option<i32> {
    let place = place(t)?;
    let (index, after) = (place / SPACING, place % SPACING);
    let differences = &DIFFERENCES[(SPACING - 1) * index..][..after];
    Some(i32::from(WHOLE[index]) + differences.iter().map(|&difference| i32::from(difference)).sum::<i32>())
}

/// Fills a slice as long as the table with its entries. One of another length stays as it was, and the length needed
/// is given.
pub fn fill(entries: &mut [u16]) -> Result<(), usize> {
    if entries.len() != LENGTH {
        return Err(LENGTH);
    }
    for (index, number) in entries.iter_mut().enumerate() {
        *number = entry(index as i64 - 500);
    }
    Ok(())
}

const fn whole() -> [u16; 63] {
    let mut entries = [0; 63];
    let mut index = 0;
    while index < entries.len() {
        entries[index] = entry((SPACING * index) as i64 - 500);
        index += 1;
    }
    entries
}

const fn differences() -> [u8; 938] {
    let mut differences = [0; 938];
    let mut index = 0;
    while index < differences.len() {
        // A whole entry stands before each fifteen of them.
        let t = (index + index / (SPACING - 1) + 1) as i64 - 500;
        let difference = entry(t) - entry(t - 1);
        assert!(difference <= u8::MAX as u16, "a difference fits a byte");
        differences[index] = difference as u8;
        index += 1;
    }
    differences
}

/// The entry at dew point t.
const fn entry(t: i64) -> u16 {
    let q = 1767 * t.unsigned_abs() * SCALE / (100 * (t + 2435) as u64);
    let mut term = SCALE;
    let mut sum = SCALE;
    let mut k = 1;
    while k <= 30 {
        term = term * q / (SCALE * k);
        sum += term;
        k += 1;
    }
    if t >= 0 {
        ((1224 * sum + SCALE) / (2 * SCALE)) as u16
    } else {
        ((1224 * SCALE + sum) / (2 * sum)) as u16
    }
}
