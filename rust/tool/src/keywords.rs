//! The keywords of a set, and how they are shown in a table.

use crate::arguments::Look;
use crate::text::{cells, columns, hex, text};
use bezowik::sets::{keyword, Keyword};
use bezowik::RECORD;
use serde_json::{json, Value};

/// The columns of tables that are put to the left: those that hold words and no numbers.
pub const LEFT: [&str; 6] = ["build", "file", "bytes", "text", "row or byte", "suffix"];

/// The keywords of a set that the library has accepted.
pub fn keywords(set: &[u8]) -> Vec<Keyword> {
    set.chunks_exact(RECORD).map(keyword).collect()
}

/// A table of keywords and their energies, with the bytes and, where all of them are printable, the text side by side.
/// In front stand columns of a command's own.
pub fn table<'a>(front: &[&str], keywords: impl Iterator<Item = (Vec<String>, &'a [u8], u64)>) -> String {
    let mut lines = vec![cells(&[front, &["bytes", "text", "energy pJ"]].concat())];
    for (front, word, energy) in keywords {
        lines.push([front, vec![hex(word), text(word).unwrap_or_default(), energy.to_string()]].concat());
    }
    columns(&lines, &LEFT)
}

impl Look {
    /// The heads of the columns that show a keyword.
    pub fn heads(&self) -> Vec<String> {
        match (self.hex, self.text) {
            (true, _) => cells(&["bytes"]),
            (_, true) => cells(&["text"]),
            _ => cells(&["bytes", "text"]),
        }
    }

    /// A keyword in those columns.
    pub fn cells(&self, word: &[u8]) -> Vec<String> {
        match (self.hex, self.text) {
            (true, _) => vec![hex(word)],
            (_, true) => vec![text(word).unwrap_or_else(|| format!("[{}]", hex(word)))],
            _ => vec![hex(word), text(word).unwrap_or_default()],
        }
    }
}

/// A keyword in json: its number, its bytes, and its text or null.
pub fn as_json(number: usize, word: &[u8]) -> Value {
    json!({ "number": number, "hex": hex(word), "text": text(word) })
}

/// A keyword in a csv: its number, its bytes, and its text or nothing.
pub fn as_csv(number: usize, word: &[u8]) -> Vec<String> {
    vec![number.to_string(), hex(word), text(word).unwrap_or_default()]
}
