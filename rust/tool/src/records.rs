//! The records of a skip table: a row's, which is a suffix, inner and edge; and a byte's, which is its far numbers.

use bezowik::{LONGEST, ROW};

/// The bytes of a row's record that name its suffix: the length, and the suffix with zeros behind it.
pub const NAME: usize = 1 + LONGEST;

/// The places of inner and edge in a row's record.
pub const INNER: usize = NAME;
pub const EDGE: usize = NAME + 1;

/// The far numbers of one byte, by depth.
pub const DEPTHS: usize = LONGEST + 1;

/// The suffix that a row's record names, if it names one.
pub fn suffix(record: &[u8]) -> Option<&[u8]> {
    let length = usize::from(record[0]);
    (length <= LONGEST && record[1 + length..NAME].iter().all(|&b| b == 0)).then(|| &record[1..1 + length])
}

/// A row's record, for a suffix that is short enough.
pub fn row(suffix: &[u8], inner: u8, edge: u8) -> Vec<u8> {
    let mut record = vec![suffix.len() as u8];
    record.extend_from_slice(suffix);
    record.resize(NAME, 0);
    record.extend([inner, edge]);
    debug_assert_eq!(record.len(), ROW);
    record
}
