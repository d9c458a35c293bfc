//! `convert`: a keyword set from an old one. Nothing is written unless the library accepts what the old set becomes.

use super::tell;
use crate::arguments::Convert;
use crate::files::{read, Input};
use crate::keywords::{keywords, table};
use crate::kinds::{kind, Kind};
use crate::old::{judged, widened};
use crate::outputs::{write, Output};
use crate::refusals::of_old_set;
use crate::text::{counted, shown_name};
use crate::{Done, Failure, Notes};
use bezowik::RECORD;
use std::io::Write;

/// The command. The two names may be one file: what is written stands in its place whole, as in that of any set.
pub fn run(asked: &Convert, out: &mut dyn Write, notes: &mut Notes) -> Done {
    let old = read(&asked.old)?;
    let set = converted(&old)?;
    write(&[Output { name: &asked.new, kind: Kind::Set, bytes: &set }], asked.replacing.force)?;
    notes.extend(new_too(&old));
    let keywords = keywords(&set);
    let lines = keywords.iter().enumerate().map(|(i, k)| (vec![i.to_string()], &k.word[..], k.energy));
    let done = format!("{} converted", counted(keywords.len(), "old record"));
    tell(&asked.new, &done, &table(&["no"], lines), out)
}

/// The set that an old one becomes, or why it becomes none.
pub fn converted(old: &Input) -> Result<Vec<u8>, Failure> {
    let name = shown_name(&old.name);
    let as_it_is = "nothing to convert, it can be used as it is";
    match (judged(&old.bytes), kind(&old.bytes)) {
        (answer, _) if answer.number == 0 => Ok(widened(&old.bytes)),
        (_, Some(Kind::Set)) => {
            let records = counted(old.bytes.len() / RECORD, "record");
            Err(Failure::Refused(format!("{name}: holds {records} of {RECORD} bytes already: {as_it_is}")))
        }
        (_, Some(other)) => {
            Err(Failure::Refused(format!("{name}: is {}, and such files have not changed: {as_it_is}", other.name())))
        }
        (answer, None) => Err(of_old_set(answer, old)),
    }
}

/// What is said of an old set that the other commands read as a new one.
fn new_too(old: &Input) -> Option<String> {
    let (name, records) = (shown_name(&old.name), counted(old.bytes.len() / RECORD, "record"));
    (kind(&old.bytes) == Some(Kind::Set)).then(|| {
        format!(
            "{name} also reads as {records} of {RECORD} bytes, and every other command reads it so: if the list is \
not that of your keywords, it was no old set, and needed no conversion"
        )
    })
}
