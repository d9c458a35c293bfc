//! `tables`: the skip tables with the largest safe numbers, or those of two csvs, checked.

use crate::arguments::Tables;
use crate::cells::told;
use crate::files::{distinct, is_standard, read, read_set, Input};
use crate::kinds::Kind;
use crate::outputs::{write, Output};
use crate::refusals::{accepted, Lent};
use crate::tabled::{byte_file, row_file};
use crate::text::{counted, shown_name};
use crate::{files, misuse, Done, Failure, Notes};
use bezowik::{Table, BYTES, ROW};
use std::io::Write;
use std::path::{Path, PathBuf};

/// The command.
pub fn run(asked: &Tables, out: &mut dyn Write, notes: &mut Notes) -> Done {
    let (rows, bytes) = (asked.rows.as_path(), asked.bytes.as_path());
    if is_standard(rows) || is_standard(bytes) {
        return Err(misuse("two files are written, so that neither can be standard output"));
    }
    let from: Vec<&Path> = asked.from.iter().flatten().map(PathBuf::as_path).collect();
    distinct(&[&[asked.set.as_path()], &from[..]].concat(), &[rows, bytes])?;
    let set = read_set(&asked.set, notes)?;
    let table = match from[..] {
        [row_csv, byte_csv] => taken(&set, row_csv, byte_csv)?,
        _ => made(&set)?,
    };
    let row_output = Output { name: rows, kind: Kind::Rows, bytes: &table.rows };
    let byte_output = Output { name: bytes, kind: Kind::Bytes, bytes: &table.bytes };
    write(&[row_output, byte_output], asked.replacing.force)?;
    writeln!(out, "{}: {} written", shown_name(rows), counted(table.rows.len() / ROW, "row"))?;
    writeln!(out, "{}: {} far numbers written", shown_name(bytes), BYTES)?;
    Ok(())
}

/// The table with the largest safe numbers.
pub fn made(set: &Input) -> Result<Table, Failure> {
    bezowik::make(&set.bytes).map_err(|refusal| refused(refusal, &Lent { set, trace: None, tables: None }))
}

/// The table of two csvs, where the check accepts it.
fn taken(set: &Input, row_csv: &Path, byte_csv: &Path) -> Result<Table, Failure> {
    let (row_input, byte_input) = (read(row_csv)?, read(byte_csv)?);
    let wrong = |input: &Input, faults: Vec<_>| told(&shown_name(&input.name), &faults);
    let table = match (row_file(&row_input.bytes), byte_file(&byte_input.bytes)) {
        (Ok(rows), Ok(bytes)) => Table { rows, bytes },
        (rows, bytes) => {
            let messages = [rows.err().map(|f| wrong(&row_input, f)), bytes.err().map(|f| wrong(&byte_input, f))];
            return Err(Failure::Refused(messages.into_iter().flatten().collect::<Vec<_>>().join("\n")));
        }
    };
    let tables = files::Tables { row_name: row_input.name, byte_name: byte_input.name, table };
    accepted(bezowik::check(&set.bytes, &tables.table), &Lent { set, trace: None, tables: Some(&tables) })?;
    Ok(tables.table)
}

/// A refusal in words.
fn refused(refusal: bezowik::Answer, lent: &Lent) -> Failure {
    match accepted(refusal, lent) {
        Err(failure) => failure,
        Ok(_) => Failure::Refused("refused without a number, which is a fault of the library".to_string()),
    }
}
