//! `show`: a set or a file of a skip table as csv.

use super::print_csv;
use crate::arguments::Show;
use crate::files::{read_set, Input};
use crate::keywords::keywords;
use crate::kinds::{kind, Kind};
use crate::records::{suffix, DEPTHS, EDGE, INNER};
use crate::refusals::{accepted, Lent};
use crate::text::{cells, hex, shown_name, text};
use crate::{Done, Failure, Notes};
use bezowik::ROW;
use std::io::Write;

/// The names of a row file's columns, and of a byte file's first.
pub const ROW_HEADS: [&str; 4] = ["row", "suffix", "inner", "edge"];
pub const BYTE_HEAD: &str = "byte";

/// The command.
pub fn run(asked: &Show, out: &mut dyn Write, notes: &mut Notes) -> Done {
    let file = read_set(&asked.file, notes)?;
    match kind(&file.bytes) {
        Some(Kind::Set) => print_csv(set_lines(&file.bytes), out),
        Some(Kind::Rows) => print_csv(row_lines(&file.bytes), out),
        Some(Kind::Bytes) => print_csv(byte_lines(&file.bytes), out),
        None => Err(unknown(&file)),
    }
}

/// That a file is none of the three: why it is no set, and that it is nothing else.
fn unknown(file: &Input) -> Failure {
    match accepted(bezowik::cost(&file.bytes, &[]), &Lent { set: file, trace: None, tables: None }) {
        Err(Failure::Refused(why)) => Failure::Refused(format!("{why}; nor is it a row file or a byte file")),
        _ => Failure::Refused(format!("{}: not a file that this tool writes", shown_name(&file.name))),
    }
}

/// A set as `bezowik set` takes it back.
fn set_lines(set: &[u8]) -> Vec<Vec<String>> {
    let line = |k: bezowik::sets::Keyword| vec![hex(&k.word), k.energy.to_string(), text(&k.word).unwrap_or_default()];
    [cells(&["hex", "energy", "name"])].into_iter().chain(keywords(set).into_iter().map(line)).collect()
}

/// A row file as `bezowik tables --from` takes it back.
fn row_lines(rows: &[u8]) -> Vec<Vec<String>> {
    let line = |(row, record): (usize, &[u8])| {
        let suffix = hex(suffix(record).unwrap_or_default());
        vec![row.to_string(), suffix, record[INNER].to_string(), record[EDGE].to_string()]
    };
    [cells(&ROW_HEADS)].into_iter().chain(rows.chunks_exact(ROW).enumerate().map(line)).collect()
}

/// A byte file as `bezowik tables --from` takes it back: a line for each byte, a column for each depth.
fn byte_lines(bytes: &[u8]) -> Vec<Vec<String>> {
    let line = |(byte, far): (usize, &[u8])| {
        [format!("{byte:02x}")].into_iter().chain(far.iter().map(u8::to_string)).collect()
    };
    [byte_heads()].into_iter().chain(bytes.chunks_exact(DEPTHS).enumerate().map(line)).collect()
}

/// The names of a byte file's columns.
pub fn byte_heads() -> Vec<String> {
    [BYTE_HEAD.to_string()].into_iter().chain((0..DEPTHS).map(|depth| depth.to_string())).collect()
}
