//! What a file holds, told from its bytes: a keyword set, a row file or a byte file.

use crate::records::suffix;
use bezowik::{BYTES, KEYWORDS, RECORD, ROW, ROWS};

/// The largest number of a byte file.
const FARTHEST: u8 = 15;

/// The bytes of the longest file of any kind, which is a row file.
pub const LONGEST: u64 = (ROWS * ROW) as u64;

/// What the tool writes into files.
#[derive(Clone, Copy, Debug, PartialEq, Eq)]
pub enum Kind {
    Set,
    Rows,
    Bytes,
}

impl Kind {
    /// The kind's name in a sentence.
    pub fn name(self) -> &'static str {
        match self {
            Kind::Set => "a keyword set",
            Kind::Rows => "a row file",
            Kind::Bytes => "a byte file",
        }
    }

    /// Whether a file of this kind can have so many bytes.
    pub fn size_fits(self, size: u64) -> bool {
        let records = |record: usize, least: u64, most: u64| {
            let record = record as u64;
            size.is_multiple_of(record) && (least..=most).contains(&(size / record))
        };
        match self {
            Kind::Set => records(RECORD, 1, KEYWORDS as u64),
            Kind::Rows => records(ROW, 2, ROWS as u64),
            Kind::Bytes => size == BYTES as u64,
        }
    }

    /// Whether bytes of a size that fits are of this kind.
    fn holds(self, bytes: &[u8]) -> bool {
        match self {
            Kind::Set => bezowik::cost(bytes, &[]).number == 0,
            Kind::Rows => bytes.chunks_exact(ROW).enumerate().all(|(i, row)| names_suffix(row, i == 0)),
            Kind::Bytes => bytes.iter().all(|&number| number <= FARTHEST),
        }
    }
}

/// What a file holds. No bytes are of two kinds: the first record of a set has a length over 0 and that of a row file
/// the length 0, and the 4096 bytes of a byte file are no whole records. The numbers of a table may be wrong: it is a
/// table still, and one that is to be made again.
pub fn kind(bytes: &[u8]) -> Option<Kind> {
    let all = [Kind::Set, Kind::Rows, Kind::Bytes];
    all.into_iter().find(|kind| kind.size_fits(bytes.len() as u64) && kind.holds(bytes))
}

/// Whether a row's record names a suffix: the empty one, or another.
fn names_suffix(row: &[u8], empty: bool) -> bool {
    suffix(row).is_some_and(|suffix| suffix.is_empty() == empty)
}

#[cfg(test)]
mod tests {
    use super::{kind, Kind, LONGEST};
    use crate::records::row;
    use bezowik::random::Random;
    use bezowik::sets::record;
    use bezowik::{BYTES, RECORD, ROW};

    const ALL: [Kind; 3] = [Kind::Set, Kind::Rows, Kind::Bytes];

    /// The longest set, whose tables are the longest, too.
    fn longest_set() -> Vec<u8> {
        (0..64).flat_map(|i| record(&[i; 15], u32::MAX)).collect()
    }

    /// A row file of so many rows, all numbers of which are wrong.
    fn rows(n: usize) -> Vec<u8> {
        (0..n).flat_map(|i| row(&[7; 15][..i.min(15)], 0xff, 0xff)).collect()
    }

    #[test]
    fn what_the_tool_writes() {
        for set in [longest_set(), record(b"A", 0), [record(b"LM", 40), record(b"ALM", 55)].concat()] {
            let table = bezowik::make(&set).expect("the set passes");
            assert_eq!([&set, &table.rows, &table.bytes].map(|bytes| kind(bytes)), ALL.map(Some));
        }
        let longest = bezowik::make(&longest_set()).expect("the set passes");
        assert_eq!(longest.rows.len() as u64, LONGEST);
    }

    #[test]
    fn damaged_files() {
        assert_eq!([rows(2), rows(961)].map(|bytes| kind(&bytes)), [Some(Kind::Rows); 2]);
        assert_eq!([vec![0; BYTES], vec![15; BYTES]].map(|bytes| kind(&bytes)), [Some(Kind::Bytes); 2]);
        let one = |mut bytes: Vec<u8>, at: usize, number: u8| {
            bytes[at] = number;
            bytes
        };
        let none = [
            vec![],
            rows(1),
            rows(962),
            rows(3)[..3 * ROW - 1].to_vec(),
            vec![0; 2 * ROW],
            one(rows(20), 0, 1),
            one(rows(3), 15, 1),
            one(rows(3), ROW, 16),
            one(rows(3), ROW + 15, 1),
            vec![1; BYTES - 1],
            vec![1; BYTES + 1],
            one(vec![1; BYTES], 4000, 16),
            one(longest_set(), 0, 16),
            [longest_set(), record(b"A", 1)].concat(),
            [record(b"A", 1), record(b"A", 2)].concat(),
            b"\"LM\",40\n".to_vec(),
        ];
        for bytes in none {
            assert_eq!(kind(&bytes), None, "{}", bytes.escape_ascii());
        }
    }

    #[test]
    fn sizes() {
        let fitting = |size: u64| ALL.map(|kind| kind.size_fits(size));
        assert_eq!(fitting(0), [false; 3]);
        let around = |size: u64| [fitting(size - 1), fitting(size), fitting(size + 1)];
        assert_eq!(around(18), [[false; 3]; 3]);
        for size in [20, 40, 64 * 20] {
            assert_eq!(around(size), [[false; 3], [true, false, false], [false; 3]]);
        }
        for size in [36, 64 * 18, 65 * 18, 72 * 18, LONGEST] {
            assert_eq!(around(size), [[false; 3], [false, true, false], [false; 3]]);
        }
        // whole records of both
        for size in [180, 6 * 180, 7 * 180] {
            assert_eq!(around(size), [[false; 3], [true, true, false], [false; 3]]);
        }
        assert_eq!([4095, 4096, 4097].map(fitting), [[false; 3], [false, false, true], [false; 3]]);
        assert_eq!([LONGEST + 18, 1 << 40, u64::MAX].map(fitting), [[false; 3]; 3]);
    }

    /// Files that are one kind or almost one: none is two.
    #[test]
    fn no_file_is_of_two_kinds() {
        let mut random = Random::new(5);
        let table = bezowik::make(&longest_set()).expect("the set passes");
        for _ in 0..3000 {
            let mut bytes = [longest_set(), rows(1 + random.below(80)), table.bytes.clone(), vec![0; BYTES]]
                [random.below(4)]
            .clone();
            for _ in 0..random.below(3) {
                let at = [0, random.below(bytes.len())][random.below(2)];
                bytes[at] = [0, 1, random.number() as u8][random.below(3)];
            }
            let whole = [1, ROW, RECORD, ROW * RECORD / 2][random.below(4)];
            let size = [bytes.len(), random.below(bytes.len() / whole + 1) * whole][random.below(2)];
            bytes.truncate(size);
            let held = ALL.into_iter().filter(|kind| kind.size_fits(bytes.len() as u64) && kind.holds(&bytes));
            assert!(held.count() <= 1, "{}", bytes.escape_ascii());
        }
    }
}
