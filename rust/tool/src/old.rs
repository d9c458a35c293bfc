//! Old sets: keyword sets of records of 18 bytes, from before an energy had four bytes.

use crate::files::Input;
use crate::kinds::{kind, Kind};
use crate::text::{counted, shell_name, shown_name};
use bezowik::{Answer, RECORD};
use std::path::Path;

/// What an energy has grown by: bytes behind those of an old record.
const GROWN: [u8; 2] = [0; 2];

/// The bytes of an old record.
pub const OLD_RECORD: usize = RECORD - GROWN.len();

/// The set of the same keywords and energies as an old set.
pub fn widened(old: &[u8]) -> Vec<u8> {
    old.chunks(OLD_RECORD).flat_map(|record| record.iter().chain(&GROWN)).copied().collect()
}

/// What the library answers to an old set: it judges the set of the same keywords. A file that ends within an old record
/// becomes one that ends within a record, so that the size is judged with the rest.
pub fn judged(old: &[u8]) -> Answer {
    bezowik::cost(&widened(old), &[])
}

/// Whether bytes are an old set.
pub fn passes(bytes: &[u8]) -> bool {
    judged(bytes).number == 0
}

/// Whether an old set can have so many bytes.
pub fn size_fits(size: u64) -> bool {
    let old = OLD_RECORD as u64;
    size.is_multiple_of(old) && Kind::Set.size_fits((size / old).saturating_mul(RECORD as u64))
}

/// What is said of a file that is read as a set where it may be an old one: the command that converts it. The name is
/// the one that was typed.
pub fn suggested(name: &Path, set: &Input) -> Option<String> {
    let (shown, bytes) = (shown_name(&set.name), &set.bytes);
    if !size_fits(bytes.len() as u64) {
        return None;
    }
    let records = format!("{} of {OLD_RECORD} bytes", counted(bytes.len() / OLD_RECORD, "old record"));
    let convert = format!("`bezowik convert {} NEW.bin`", shell_name(name));
    match (bezowik::cost(bytes, &[]).number, judged(bytes).number) {
        (0, 0) => {
            Some(format!("{shown} also reads as {records}: if it is an old set, {convert} makes a new one of it"))
        }
        (_, 0) => {
            Some(format!("{shown} reads as {records}, from before an energy had four: {convert} makes a new set of it"))
        }
        // its size is that of an old set, and a row file's can be
        (2, 4..=6) if kind(bytes) != Some(Kind::Rows) => {
            Some(format!("{shown} has the size of {records}: if it is an old set, {convert} tells what is wrong in it"))
        }
        _ => None,
    }
}

#[cfg(test)]
mod tests {
    use super::size_fits;

    #[test]
    fn sizes() {
        for size in [18, 36, 180, 64 * 18] {
            assert_eq!([size - 1, size, size + 1].map(size_fits), [false, true, false]);
        }
        assert_eq!([0, 20, 65 * 18, 1 << 40, u64::MAX, u64::MAX - u64::MAX % 18].map(size_fits), [false; 6]);
    }
}
