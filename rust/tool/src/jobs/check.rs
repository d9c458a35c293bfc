//! `check`: whether skip tables are safe, every number that is not, and how many could be larger.

use super::{print_csv, print_json};
use crate::arguments::{Check, Printed};
use crate::faults::{audit, byte_shown, Audit, Fault};
use crate::files::{distinct, read_set, read_tables, Input, Tables};
use crate::keywords::LEFT;
use crate::kinds::{kind, Kind};
use crate::records::DEPTHS;
use crate::refusals::{accepted, Lent};
use crate::text::{cells, columns, counted, hex, shell_name, shell_word, shown_name};
use crate::{Done, Failure, Notes};
use bezowik::Answer;
use serde_json::{json, Value};
use std::io::Write;

/// The command. What the library answers decides; the faults are told beside it.
pub fn run(asked: &Check, out: &mut dyn Write, notes: &mut Notes) -> Done {
    distinct(&[&asked.set, &asked.rows, &asked.bytes], &[])?;
    let set = read_set(&asked.set, notes)?;
    let tables = read_tables(&asked.rows, &asked.bytes)?;
    report(asked, &set, &tables, bezowik::check(&set.bytes, &tables.table), out)
}

/// The report of a table, and the refusal where it is one.
fn report(asked: &Check, set: &Input, tables: &Tables, answer: Answer, out: &mut dyn Write) -> Done {
    let lent = Lent { set, trace: None, tables: Some(tables) };
    let largest = match bezowik::make(&set.bytes) {
        Ok(largest) => largest,
        Err(refusal) => return accepted(refusal, &lent).map(|_| ()),
    };
    let audit = audit(tables, &largest);
    match asked.form.printed() {
        Printed::Json => print_json(&in_json(asked, tables, answer, &audit), out)?,
        Printed::Csv => in_csv(&audit, out)?,
        Printed::Text => in_text(asked, tables, answer, &audit, out)?,
    }
    accepted(answer, &lent).map(|_| ()).map_err(first_line)
}

/// A refusal without the lines that the report has said better.
fn first_line(failure: Failure) -> Failure {
    match failure {
        Failure::Refused(told) => Failure::Refused(told.lines().next().unwrap_or_default().to_string()),
        other => other,
    }
}

/// The command that mends the tables: with the files in their places where they look swapped, else the one that makes
/// them again.
fn mend(asked: &Check, tables: &Tables, swapped: bool) -> String {
    let [set, rows, bytes] = [&asked.set, &asked.rows, &asked.bytes].map(|name| shell_name(name));
    let kinds = (kind(&tables.table.rows), kind(&tables.table.bytes));
    match (swapped, kinds == (Some(Kind::Rows), Some(Kind::Bytes))) {
        (true, _) => format!("bezowik check {set} {bytes} {rows}"),
        (_, true) => format!("bezowik tables {set} {rows} {bytes}"),
        // a file that is too damaged to be known again is not replaced without it
        _ => format!("bezowik tables {set} {rows} {bytes} --force"),
    }
}

/// The row or the byte of the first fault, and the command that tells how its largest numbers are found. Where the
/// files look swapped no number is at fault.
fn explained(asked: &Check, audit: &Audit) -> Option<(String, String)> {
    let fault = audit.faults.first().filter(|_| !audit.swapped)?;
    let set = shell_name(&asked.set);
    let byte = (fault.place / DEPTHS) as u8;
    Some(match fault.number {
        10 => ("row 0".to_string(), format!("bezowik explain {set} ''")),
        11 | 12 => (fault.at.clone(), format!("bezowik explain {set} {}", shell_word(&hex(&fault.suffix)))),
        _ => (format!("byte {}", byte_shown(byte)), format!("bezowik explain {set} --byte {byte:02x}")),
    })
}

/// The result for a person.
fn in_text(asked: &Check, tables: &Tables, answer: Answer, audit: &Audit, out: &mut dyn Write) -> Done {
    if answer.number == 0 {
        writeln!(out, "the tables are safe for this set: {}", counted(answer.count as usize, "row"))?;
    } else {
        let mut lines = vec![cells(&["file", "row or byte", "suffix", "number", "found", "largest"])];
        lines.extend(audit.faults.iter().map(|fault| fault_cells(asked, fault)));
        writeln!(out, "{}{}", columns(&lines, &LEFT), counted(audit.faults.len(), "fault"))?;
    }
    let mend = mend(asked, tables, audit.swapped);
    if audit.swapped {
        let (rows, bytes) = (shown_name(&asked.rows), shown_name(&asked.bytes));
        writeln!(out, "the two files look swapped: {rows} is a byte file, {bytes} a row file")?;
        return Ok(writeln!(out, "this checks them in their places: {mend}")?);
    }
    // a file of another size is not compared to its end
    if !audit.faults.iter().any(|fault| fault.what == "size") {
        writeln!(out, "{}", below(audit))?;
    }
    if answer.number != 0 || audit.below > 0 {
        writeln!(out, "this makes the tables again, with the largest safe numbers: {mend}")?;
    }
    if let Some((what, explain)) = explained(asked, audit) {
        writeln!(out, "this tells how the largest numbers of {what} are found: {explain}")?;
    }
    Ok(())
}

/// How many numbers are below the largest safe ones.
fn below(audit: &Audit) -> String {
    let all = audit.numbers;
    match audit.below {
        0 => format!("none of {all} numbers is below the largest safe one"),
        1 => format!("1 of {all} numbers is below the largest safe one: safe, but slower than need be"),
        n => format!("{n} of {all} numbers are below the largest safe ones: safe, but slower than need be"),
    }
}

/// A fault as a line of the table.
fn fault_cells(asked: &Check, fault: &Fault) -> Vec<String> {
    let file = if fault.number <= 12 { &asked.rows } else { &asked.bytes };
    let suffix = match fault.number {
        11 | 12 if fault.suffix.is_empty() => "(empty)".to_string(),
        11 | 12 => asked.look.cells(&fault.suffix).join("  "),
        _ => String::new(),
    };
    vec![shown_name(file), fault.at.clone(), suffix, fault.what.to_string(), fault.found.clone(), fault.largest.clone()]
}

/// The result in json.
fn in_json(asked: &Check, tables: &Tables, answer: Answer, audit: &Audit) -> Value {
    json!({
        "set": shown_name(&asked.set), "rows": shown_name(&asked.rows), "bytes": shown_name(&asked.bytes),
        "safe": answer.number == 0, "refusal": answer.number, "place": answer.place,
        "faults": audit.faults.iter().map(Fault::as_json).collect::<Vec<_>>(),
        "numbers": audit.numbers, "below": audit.below, "swapped": audit.swapped,
        "mend": mend(asked, tables, audit.swapped),
        "explain": explained(asked, audit).map(|(_, explain)| explain),
    })
}

/// The faults as csv.
fn in_csv(audit: &Audit, out: &mut dyn Write) -> Done {
    let head = cells(&["refusal", "place", "at", "suffix", "what", "found", "largest"]);
    let line = |f: &Fault| {
        let suffix = hex(&f.suffix);
        vec![
            f.number.to_string(),
            f.place.to_string(),
            f.at.clone(),
            suffix,
            f.what.to_string(),
            f.found.clone(),
            f.largest.clone(),
        ]
    };
    print_csv([head].into_iter().chain(audit.faults.iter().map(line)), out)
}
