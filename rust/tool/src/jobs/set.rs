//! `set`: a keyword set from a csv. Nothing is written unless every line is right and the library accepts the set.

use super::tell;
use crate::arguments::Set;
use crate::cells::told;
use crate::files::{distinct, read, Input};
use crate::keywords::table;
use crate::kinds::Kind;
use crate::outputs::{write, Output};
use crate::refusals::{accepted, Lent};
use crate::sets::{keywords, set_file, Sheet};
use crate::text::{counted, shown_name};
use crate::{Done, Failure};
use std::io::Write;

/// The command.
pub fn run(asked: &Set, out: &mut dyn Write) -> Done {
    distinct(&[&asked.from], &[&asked.to])?;
    let csv = read(&asked.from)?;
    let sheet =
        keywords(&csv.bytes, asked.text).map_err(|faults| Failure::Refused(told(&shown_name(&csv.name), &faults)))?;
    let made = Input { name: asked.to.clone(), bytes: set_file(&sheet.keywords) };
    accepted(bezowik::cost(&made.bytes, &[]), &Lent { set: &made, trace: None, tables: None })?;
    write(&[Output { name: &asked.to, kind: Kind::Set, bytes: &made.bytes }], asked.replacing.force)?;
    tell(&asked.to, &format!("{} written", counted(sheet.keywords.len(), "keyword")), &listed(&sheet), out)
}

/// The table of what was taken, with the line of each. The notes stand behind it.
pub fn listed(sheet: &Sheet) -> String {
    let lines = sheet
        .keywords
        .iter()
        .enumerate()
        .map(|(i, taken)| (vec![i.to_string(), taken.line.to_string()], &taken.word[..], u64::from(taken.energy)));
    let notes = sheet.notes.iter().map(|note| match note.line {
        Some(line) => format!("note: line {line}: {}\n", note.reason),
        None => format!("note: {}\n", note.reason),
    });
    let notes = notes.collect::<String>();
    table(&["no", "line"], lines) + if notes.is_empty() { "" } else { "\n" } + &notes
}
