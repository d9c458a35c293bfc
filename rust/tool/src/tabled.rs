//! Skip tables from csv, as `bezowik show` prints them.

use crate::cells::{rows, Fault, Row};
use crate::jobs::show::{byte_heads, BYTE_HEAD, ROW_HEADS};
use crate::records::{self, DEPTHS};
use crate::sets::hex_bytes;
use crate::text::plain;
use bezowik::{BYTES, LONGEST};

/// A row file from its csv, or every wrong line.
pub fn row_file(csv: &[u8]) -> Result<Vec<u8>, Vec<Fault>> {
    let heads: Vec<String> = ROW_HEADS.iter().map(|head| head.to_string()).collect();
    collected(&body(csv, &heads)?, row_record)
}

/// A byte file from its csv, or every wrong line.
pub fn byte_file(csv: &[u8]) -> Result<Vec<u8>, Vec<Fault>> {
    let lines = body(csv, &byte_heads())?;
    if lines.len() != BYTES / DEPTHS {
        let reason = format!("{} lines of numbers, and a byte file has {}", lines.len(), BYTES / DEPTHS);
        return Err(vec![Fault { line: None, reason }]);
    }
    collected(&lines, byte_record)
}

/// The lines behind a first row that must be these heads.
fn body(csv: &[u8], heads: &[String]) -> Result<Vec<Row>, Vec<Fault>> {
    let names: Vec<&str> = heads.iter().map(String::as_str).collect();
    let mut lines = rows(csv, &names)?;
    let told = |line, reason| Err(vec![Fault { line, reason }]);
    if lines.is_empty() {
        return told(None, format!("no line in it: the first must be {}", heads.join(",")));
    }
    let head = lines.remove(0);
    let cells: Vec<String> =
        head.cells.iter().map(|cell| String::from_utf8_lossy(cell).trim().to_ascii_lowercase()).collect();
    match cells == heads {
        true => Ok(lines),
        false => told(Some(head.line), format!("the first row must be {}", heads.join(","))),
    }
}

/// The records of all lines, or every wrong line.
fn collected(lines: &[Row], record: fn(usize, &[&str]) -> Result<Vec<u8>, String>) -> Result<Vec<u8>, Vec<Fault>> {
    let mut bytes = Vec::new();
    let mut faults = Vec::new();
    for (i, line) in lines.iter().enumerate() {
        let cells: Vec<_> = line.cells.iter().map(|cell| String::from_utf8_lossy(cell)).collect();
        let cells: Vec<&str> = cells.iter().map(|cell| cell.trim()).collect();
        match record(i, &cells) {
            Ok(record) => bytes.extend(record),
            Err(reason) => faults.push(Fault { line: Some(line.line), reason }),
        }
    }
    match faults.is_empty() {
        true => Ok(bytes),
        false => Err(faults),
    }
}

/// The record of a row: its number, its suffix in hex, inner, edge.
fn row_record(row: usize, cells: &[&str]) -> Result<Vec<u8>, String> {
    let [number, suffix, inner, edge] = cells else {
        return Err(format!("{} cells, and a row has 4", cells.len()));
    };
    if number.parse() != Ok(row) {
        return Err(format!(
            "the row {} where row {row} must stand: rows are in order, and none is left out",
            plain(number)
        ));
    }
    let suffix =
        hex_bytes(suffix.as_bytes()).map_err(|_| format!("the suffix {} is not pairs of hex digits", plain(suffix)))?;
    if suffix.len() > LONGEST {
        return Err(format!("the suffix has {} bytes, and none has over {LONGEST}", suffix.len()));
    }
    Ok(records::row(&suffix, small("inner", inner)?, small("edge", edge)?))
}

/// The record of a byte: the byte in hex, and its far numbers.
fn byte_record(byte: usize, cells: &[&str]) -> Result<Vec<u8>, String> {
    let Some((named, far)) = cells.split_first().filter(|(_, far)| far.len() == DEPTHS) else {
        return Err(format!("{} cells, and a byte has {}", cells.len(), DEPTHS + 1));
    };
    // a spreadsheet makes 5 of 05
    if named.len() > 2 || usize::from_str_radix(named, 16) != Ok(byte) {
        return Err(format!(
            "the {BYTE_HEAD} {} where {byte:02x} must stand: bytes are in order, and none is left out",
            plain(named)
        ));
    }
    far.iter().enumerate().map(|(depth, cell)| small(&format!("far at depth {depth}"), cell)).collect()
}

/// A number of a skip table. Whether it is safe is for the check to say.
fn small(name: &str, cell: &str) -> Result<u8, String> {
    let digits = !cell.is_empty() && cell.bytes().all(|b| b.is_ascii_digit());
    let number = digits.then(|| cell.parse().ok()).flatten();
    number.ok_or_else(|| {
        format!(
            "{name} is {}, and must be a number from 1 to 15",
            if cell.is_empty() { "empty".to_string() } else { plain(cell) }
        )
    })
}
