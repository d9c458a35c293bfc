//! A refusal as a person reads it: the file, the number, the place, and a sentence that says what is wrong there.

use crate::faults::byte_shown;
use crate::files::{Input, Tables};
use crate::old::OLD_RECORD;
use crate::records::{self, DEPTHS, EDGE, INNER, NAME};
use crate::text::{hex, shown, shown_name, suffix};
use crate::Failure;
use bezowik::{Answer, Table, BYTES, KEYWORDS, LONGEST, RECORD, ROW};
use std::path::Path;

/// Refusal 8. The longest keyword has 15 bytes, so that one which a cut divides stands whole in the part behind the
/// cut.
const TOO_LONG: &str = "the trace has over 1,048,576 bytes: cut it into parts, and begin each later part 14 bytes \
before the cut; the count and the energy of the whole are the sums over the parts, less those of each later part's \
first 14 bytes alone";

/// What the library was lent in the call that it answered.
pub struct Lent<'a> {
    pub set: &'a Input,
    pub trace: Option<&'a Input>,
    pub tables: Option<&'a Tables>,
}

/// The answer where it is no refusal, else the refusal in words.
pub fn accepted(answer: Answer, lent: &Lent) -> Result<Answer, Failure> {
    if answer.number == 0 {
        return Ok(answer);
    }
    let (file, sentence) = explained(answer, lent);
    Err(refused(answer, file, &sentence))
}

/// The refusal of an old set in words.
pub fn of_old_set(answer: Answer, old: &Input) -> Failure {
    refused(answer, &old.name, &of_set(answer, &old.bytes, OLD_RECORD))
}

/// A refusal, with its file and its sentence.
fn refused(answer: Answer, file: &Path, sentence: &str) -> Failure {
    Failure::Refused(format!("{}: refusal {} place {}: {sentence}", shown_name(file), answer.number, answer.place))
}

/// The file that a refusal is about, and the sentence.
fn explained<'a>(answer: Answer, lent: &Lent<'a>) -> (&'a Path, String) {
    let place = answer.place as usize;
    match (answer.number, lent.trace, lent.tables) {
        (1..=6, _, _) => (&lent.set.name, of_set(answer, &lent.set.bytes, RECORD)),
        (8, Some(trace), _) => (&trace.name, TOO_LONG.to_string()),
        (10..=12, _, Some(tables)) => (&tables.row_name, of_rows(answer.number, place, &lent.set.bytes, &tables.table)),
        (13..=14, _, Some(tables)) => {
            (&tables.byte_name, of_bytes(answer.number, place, &lent.set.bytes, &tables.table))
        }
        // the tool lends room for every set, so the library has no cause for any other
        _ => (&lent.set.name, "the tool lent too little room, which is a fault of the tool".to_string()),
    }
}

/// The refusals 1 to 6, of a set whose records have so many bytes.
fn of_set(answer: Answer, set: &[u8], record: usize) -> String {
    let (place, size) = (usize::from(answer.place), set.len());
    let word = |place: usize| word(&set[record * place..record * (place + 1)]);
    match answer.number {
        1 => format!("the set has no bytes: it must have at least one record of {record} bytes"),
        2 => format!("the set has {size} bytes, no multiple of {record}: the file is cut short or is no keyword set"),
        3 => format!("the set has {} records, more than {KEYWORDS}: split it", size / record),
        4 => format!("record {place} has the length {}, and a keyword has 1 to {LONGEST} bytes", set[record * place]),
        5 => format!(
            "record {place}, keyword {}: the bytes behind the keyword, up to byte {LONGEST}, must be zero",
            shown(word(place))
        ),
        _ => {
            let earlier = (0..place).find(|&i| word(i) == word(place)).unwrap_or(0);
            format!(
                "record {place} has the same bytes as record {earlier}, {}: take one of the two out",
                shown(word(place))
            )
        }
    }
}

/// The keyword of a record that has passed test 4.
fn word(record: &[u8]) -> &[u8] {
    &record[1..1 + usize::from(record[0])]
}

/// The refusals 10 to 12, beside the table with the largest numbers.
fn of_rows(number: u16, place: usize, set: &[u8], lent: &Table) -> String {
    if number == 10 {
        let (has, needs) = (lent.rows.len(), ROW * place);
        let sizes = format!("the row file has {has} bytes, and this set's {place} rows need exactly {needs}");
        return format!("{sizes}: make the tables again for this set");
    }
    let largest = largest(set);
    let found = &lent.rows[ROW * place..ROW * (place + 1)];
    let most = &largest.rows[ROW * place..ROW * (place + 1)];
    let row = named(most);
    let both = |told: fn(&str, u8, u8) -> String| {
        format!("{}\n  {}", told("inner", found[INNER], most[INNER]), told("edge", found[EDGE], most[EDGE]))
    };
    match number {
        11 => {
            let sentence = format!("row {place} is {row}, but its record names {}", named(found));
            format!("{sentence}: the file was made for another set, or a row slipped\n  {}", both(beside))
        }
        _ => format!("a number of row {place}, {row}, is not safe\n  {}", both(judged)),
    }
}

/// The refusals 13 and 14, beside the table with the largest numbers.
fn of_bytes(number: u16, place: usize, set: &[u8], lent: &Table) -> String {
    if number == 13 {
        return format!(
            "the byte file has {} bytes, and it must have exactly {BYTES}: make the tables again",
            lent.bytes.len()
        );
    }
    let (byte, depth) = ((place / DEPTHS) as u8, place % DEPTHS);
    let numbers = judged("far", lent.bytes[place], largest(set).bytes[place]);
    format!("the number of byte {} at depth {depth} is not safe\n  {numbers}", byte_shown(byte))
}

/// The table with the largest safe numbers, of a set that has passed its tests.
fn largest(set: &[u8]) -> Table {
    bezowik::make(set).expect("a refusal of a table comes after the tests of the set")
}

/// A number of a record that does not name its row, beside the row's largest safe one. It is not judged: it was not
/// made for this row.
fn beside(name: &str, found: u8, most: u8) -> String {
    format!("{name} is {found}; the largest safe number of this row is {most}")
}

/// A number of a table beside the largest safe one, and whether it is safe.
fn judged(name: &str, found: u8, most: u8) -> String {
    match found {
        0 => format!("{name} is 0: the largest safe number is {most}, and 0 never moves on"),
        n if n > most => format!("{name} is {n}: the largest safe number is {most}, and a larger one can lose hits"),
        n => format!("{name} is {n}: safe, and the largest safe number is {most}"),
    }
}

/// The suffix that a record of a row file names, or the record's own bytes where it names none.
fn named(record: &[u8]) -> String {
    match records::suffix(record) {
        Some(named) => suffix(named),
        None => format!("no suffix ({})", hex(&record[..NAME])),
    }
}
