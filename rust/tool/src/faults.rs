//! Every number of a skip table beside the largest safe one: which are not safe, and how many could be larger.

use crate::files::Tables;
use crate::kinds::{kind, Kind};
use crate::records::{suffix, DEPTHS, EDGE, INNER, NAME};
use crate::text::{hex, text};
use bezowik::{Table, BYTES, ROW};
use serde_json::{json, Value};

/// One thing in a table that is not safe.
pub struct Fault {
    /// The refusal that it would be by itself, and its place.
    pub number: u16,
    pub place: usize,
    /// The file, the row or the byte, in words.
    pub at: String,
    /// The suffix of the row.
    pub suffix: Vec<u8>,
    /// Which number: `inner`, `edge`, `far`; `suffix` where the record names another; or the file's `size`.
    pub what: &'static str,
    pub found: String,
    pub largest: String,
}

/// What a table is beside the one with the largest numbers.
pub struct Audit {
    pub faults: Vec<Fault>,
    /// The numbers that are safe and below the largest.
    pub below: usize,
    /// All numbers that the tables of this set have.
    pub numbers: usize,
    pub swapped: bool,
}

/// A table beside the largest numbers of its set.
pub fn audit(lent: &Tables, largest: &Table) -> Audit {
    let mut audit = Audit {
        faults: Vec::new(),
        below: 0,
        numbers: 2 * (largest.rows.len() / ROW) + BYTES,
        swapped: kind(&lent.table.rows) == Some(Kind::Bytes) && kind(&lent.table.bytes) == Some(Kind::Rows),
    };
    audit.of_rows(&lent.table.rows, &largest.rows);
    audit.of_bytes(&lent.table.bytes, &largest.bytes);
    audit
}

impl Audit {
    /// The row file: its size, then record by record as far as there are whole ones.
    fn of_rows(&mut self, found: &[u8], largest: &[u8]) {
        if found.len() != largest.len() {
            self.size(10, largest.len() / ROW, "row file", found.len(), largest.len());
        }
        // the records of a byte file would each name nothing
        if self.swapped {
            return;
        }
        for (place, (found, most)) in found.chunks_exact(ROW).zip(largest.chunks_exact(ROW)).enumerate() {
            let fault = |number, what, found, largest| {
                let suffix = suffix(most).unwrap_or_default().to_vec();
                Fault { number, place, at: format!("row {place}"), suffix, what, found, largest }
            };
            if found[..NAME] != most[..NAME] {
                self.faults.push(fault(11, "suffix", named(found), named(most)));
                continue;
            }
            for (at, what) in [(INNER, "inner"), (EDGE, "edge")] {
                if !self.safe(found[at], most[at]) {
                    self.faults.push(fault(12, what, found[at].to_string(), most[at].to_string()));
                }
            }
        }
    }

    /// The byte file: its size, or number by number.
    fn of_bytes(&mut self, found: &[u8], largest: &[u8]) {
        if found.len() != BYTES {
            return self.size(13, 0, "byte file", found.len(), BYTES);
        }
        for (place, (&found, &most)) in found.iter().zip(largest).enumerate() {
            if !self.safe(found, most) {
                let at = format!("byte {} depth {}", byte_shown((place / DEPTHS) as u8), place % DEPTHS);
                let (found, largest) = (found.to_string(), most.to_string());
                self.faults.push(Fault { number: 14, place, at, suffix: vec![], what: "far", found, largest });
            }
        }
    }

    /// A file that has not the bytes it must have.
    fn size(&mut self, number: u16, place: usize, file: &str, found: usize, must: usize) {
        let (found, largest) = (format!("{found} bytes"), format!("{must} bytes"));
        self.faults.push(Fault { number, place, at: file.to_string(), suffix: vec![], what: "size", found, largest });
    }

    /// Whether a number is safe; one that could be larger is counted.
    fn safe(&mut self, found: u8, most: u8) -> bool {
        self.below += usize::from((1..most).contains(&found));
        (1..=most).contains(&found)
    }
}

impl Fault {
    /// The fault in json; a number of the table is a number there too.
    pub fn as_json(&self) -> Value {
        let value = |cell: &str| cell.parse::<u8>().map_or_else(|_| json!(cell), |number| json!(number));
        json!({
            "refusal": self.number, "place": self.place, "at": self.at,
            "suffix": hex(&self.suffix), "text": text(&self.suffix),
            "what": self.what, "found": value(&self.found), "largest": value(&self.largest),
        })
    }
}

/// The suffix that a record of a row file names, in hex, or that it names none.
fn named(record: &[u8]) -> String {
    match suffix(record) {
        Some([]) => "(empty)".to_string(),
        Some(suffix) => hex(suffix),
        None => format!("no suffix ({})", hex(&record[..NAME])),
    }
}

/// One byte, in hex, and as text where it has one.
pub fn byte_shown(byte: u8) -> String {
    match byte.is_ascii_graphic() {
        true => format!("{byte:02x} ({})", char::from(byte)),
        false => format!("{byte:02x}"),
    }
}
