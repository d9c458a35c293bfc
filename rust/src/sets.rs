//! A keyword, and its record in a set.

use crate::low_first;

/// A keyword as its record states it.
#[derive(Clone, Debug, PartialEq, Eq)]
pub struct Keyword {
    pub word: Vec<u8>,
    pub energy: u64,
}

/// A keyword's record.
pub fn record(word: &[u8], energy: u32) -> Vec<u8> {
    let mut bytes = vec![word.len() as u8];
    bytes.extend_from_slice(word);
    bytes.resize(16, 0);
    bytes.extend_from_slice(&energy.to_le_bytes());
    bytes
}

/// The keyword of a record that has passed its tests.
pub fn keyword(record: &[u8]) -> Keyword {
    Keyword { word: record[1..1 + usize::from(record[0])].to_vec(), energy: low_first(&record[16..20]) }
}
