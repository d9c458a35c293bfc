//! A keyword set from the rows of a csv.

use crate::cells::{self, blank, excerpt, Fault, Row};
use crate::text::shown;
use bezowik::sets::record;
use bezowik::{ENERGY, KEYWORDS, LONGEST};
use std::collections::HashMap;

/// The columns that a header can name, and that are not passed over.
const NAMES: [&str; 3] = ["hex", "text", "energy"];

/// How a file says what its columns are.
const NAME_THEM: &str = "name the columns in a first row, `hex` or `text`, and `energy`";

/// That --text and a column of hex do not go together.
const TEXT_AND_HEX: &str = "--text takes the keywords as text, and the first row names a column `hex`: \
    leave --text out, or name the column `text`";

/// What an energy is.
const WHOLE: &str = "energies are whole picojoules, without decimals or separators";

/// What else a number can be in a hex column.
const RETYPE: &str = "if a spreadsheet took it for a number, make its cells text and type it again";

/// What is noted of hex that a spreadsheet may have changed.
const ZEROS: &str = "hex of digits alone, and a spreadsheet drops the zeros in front of a number: \
    if bytes are missing, write spaces between them (41 42) or 0x in front (0x41)";

/// What is noted of text that may have been meant as a comment.
const HASHES: &str =
    "text that begins with #, and it is a keyword: a csv has no comments, delete the row if it was one";

/// What is noted of an energy that may have lost its decimals to the next column.
const DECIMALS: &str = "a number right behind the energy, in a column that is passed over: energies are whole \
    picojoules, so look whether it is what stood behind a decimal comma";

/// What a row that begins with # is told.
const NO_COMMENTS: &str = "a csv has no comments: delete the row that begins with #, or put it into a column `note`";

/// What people put around a word as quotes.
const QUOTES: &str = "\"'`´“”„‟‘’‚‛«»‹›";

/// The most lines that one note names.
const NAMED: usize = 8;

/// A keyword and the line that gave it.
#[derive(Clone, Debug, PartialEq, Eq)]
pub struct Taken {
    pub line: usize,
    pub word: Vec<u8>,
    pub energy: u32,
}

/// What was taken from a csv, and what its writer should look at although it was taken.
#[derive(Clone, Debug, PartialEq, Eq)]
pub struct Sheet {
    pub keywords: Vec<Taken>,
    pub notes: Vec<Fault>,
}

/// How the keyword column is written.
#[derive(Clone, Copy, PartialEq, Eq)]
enum Kind {
    Hex,
    Text,
}

/// Where the cells of a row stand, and how they are read: the columns up to the last that has a name, the cells of the
/// first row, and its line.
struct Form {
    kind: Kind,
    keyword: usize,
    energy: usize,
    columns: usize,
    cells: usize,
    header: bool,
    separator: u8,
    line: usize,
}

/// What the rows of a sheet gave so far, and the line of each word in them.
#[derive(Default)]
struct Reading {
    taken: Vec<Taken>,
    faults: Vec<Fault>,
    wrong: usize,
    zeros: Vec<usize>,
    hashes: Vec<usize>,
    decimals: Vec<usize>,
    lines: HashMap<Vec<u8>, usize>,
}

/// The keywords of a csv, or all that is wrong with it. `text` is --text: without a header, the first column is text.
pub fn keywords(csv: &[u8], text: bool) -> Result<Sheet, Vec<Fault>> {
    let read = cells::read(csv, &NAMES);
    let mut faults = read.faults;
    let Some(first) = read.rows.first() else {
        return Err(if faults.is_empty() { vec![no_keyword()] } else { faults });
    };
    if faults.first().is_some_and(|fault| fault.line < Some(first.line)) {
        // what the columns are cannot be told
        return Err(faults);
    }
    let mut reading = match form(first, read.separator, text) {
        Ok(form) => reading(&read.rows, &form),
        Err(reason) => Reading { faults: vec![Fault::at(first.line, reason)], ..Reading::default() },
    };
    if faults.is_empty() && reading.faults.is_empty() && reading.taken.is_empty() {
        return Err(vec![no_keyword()]);
    }
    faults.append(&mut reading.faults);
    faults.sort_by_key(|fault| fault.line);
    match faults.is_empty() {
        true => Ok(Sheet { notes: reading.notes(), keywords: reading.taken }),
        false => Err(faults),
    }
}

/// The set file of keywords.
pub fn set_file(keywords: &[Taken]) -> Vec<u8> {
    keywords.iter().flat_map(|keyword| record(&keyword.word, keyword.energy)).collect()
}

/// That a csv has no keyword.
fn no_keyword() -> Fault {
    Fault::whole("no keyword in it, and a set has at least one")
}

/// The form of a sheet, told from its first row, or what is wrong with its header.
fn form(first: &Row, separator: u8, text: bool) -> Result<Form, String> {
    let names: Vec<String> = first.cells.iter().map(|cell| name(cell)).collect();
    let (line, cells) = (first.line, first.cells.len());
    if !names.iter().any(|name| NAMES.contains(&name.as_str())) {
        let kind = if text { Kind::Text } else { Kind::Hex };
        return Ok(Form { kind, keyword: 0, energy: 1, columns: 2, cells: 2, header: false, separator, line });
    }
    let places = |wanted: &str| -> Vec<usize> { (0..names.len()).filter(|&i| names[i] == wanted).collect() };
    let (kind, keyword, energy) = match (&places("hex")[..], &places("text")[..], &places("energy")[..]) {
        ([_], [], [_]) if text => return Err(TEXT_AND_HEX.to_string()),
        (&[keyword], [], &[energy]) => (Kind::Hex, keyword, energy),
        ([], &[keyword], &[energy]) => (Kind::Text, keyword, energy),
        (hex, text, energy) => return Err(bad_header(first, separator, [hex.len(), text.len(), energy.len()])),
    };
    let columns = names.iter().rposition(|name| !name.is_empty()).map_or(0, |last| last + 1);
    Ok(Form { kind, keyword, energy, columns, cells, header: true, separator, line })
}

/// A cell of a header as a name.
fn name(cell: &[u8]) -> String {
    String::from_utf8_lossy(cell.trim_ascii()).to_ascii_lowercase()
}

/// What is missing or too much in a header that has so many columns `hex`, `text` and `energy`.
fn bad_header(row: &Row, separator: u8, [hex, text, energy]: [usize; 3]) -> String {
    let mut wrong = Vec::new();
    match (hex, text) {
        (0, 0) => wrong.push("no `hex` or `text`"),
        (1.., 1..) => wrong.push("both `hex` and `text`"),
        (2.., _) => wrong.push("`hex` more than once"),
        (_, 2..) => wrong.push("`text` more than once"),
        _ => {}
    }
    match energy {
        0 => wrong.push("no `energy`"),
        1 => {}
        _ => wrong.push("`energy` more than once"),
    }
    let found = excerpt(&row.cells.join(&separator));
    format!("the header {found} has {}: {NAME_THEM}, each once", wrong.join(" and "))
}

/// The rows of a sheet, in its form. Behind a header that is none, the rows tell more only where most of them are
/// right: if they are not, they are not in the form that was taken for theirs.
fn reading(rows: &[Row], form: &Form) -> Reading {
    let Some((first, rest)) = rows.split_first() else { return Reading::default() };
    if form.header {
        return data(rest, form);
    }
    if is_data(first, form) {
        return data(rows, form);
    }
    let mut reading = data(rest, form);
    if 2 * reading.wrong > rest.len() {
        reading.faults.clear();
    }
    reading.faults.push(Fault::at(first.line, no_header(first, form)));
    reading
}

/// Whether the first row of a sheet without a header is a keyword with an energy, be they right or wrong.
fn is_data(row: &Row, form: &Form) -> bool {
    let (Some(keyword), Some(energy)) = (row.cells.get(form.keyword), row.cells.get(form.energy)) else { return false };
    let told = energy.iter().find(|byte| byte.is_ascii_alphanumeric() || !byte.is_ascii());
    match blank(energy) {
        true => word(keyword, form).is_ok(),
        false => told.is_some_and(u8::is_ascii_digit),
    }
}

/// That the first row is neither a header nor a keyword with an energy.
fn no_header(row: &Row, form: &Form) -> String {
    if let Some(reason) = comment(row) {
        return reason;
    }
    let found = excerpt(&row.cells.join(&form.separator));
    format!("the first row {found} is neither a header nor a keyword with an energy: {NAME_THEM}")
}

/// The keywords of rows, and all that is wrong with them.
fn data(rows: &[Row], form: &Form) -> Reading {
    let mut reading = Reading::default();
    for (i, row) in rows.iter().enumerate() {
        if i == KEYWORDS {
            let reason =
                format!("this is keyword {} of {}, and a set has at most {KEYWORDS}", KEYWORDS + 1, rows.len());
            reading.faults.push(Fault::at(row.line, reason));
        }
        reading.add(row, form);
    }
    reading
}

impl Reading {
    /// One more row: its keyword, or all that is wrong with it.
    fn add(&mut self, row: &Row, form: &Form) {
        match self.keyword(row, form) {
            Ok(keyword) => self.taken.push(keyword),
            Err(reasons) => {
                let reasons = comment(row).map_or(reasons, |reason| vec![reason]);
                self.faults.extend(reasons.into_iter().map(|reason| Fault::at(row.line, reason)));
                self.wrong += 1;
            }
        }
    }

    /// A row's keyword, or all that is wrong with it.
    fn keyword(&mut self, row: &Row, form: &Form) -> Result<Taken, Vec<String>> {
        let (keyword, energy_cell) = form.keyword_and_energy(row).map_err(|reason| vec![reason])?;
        let word = word(keyword, form).and_then(|word| self.once(word, row.line));
        match (word, energy(energy_cell)) {
            (Ok(word), Ok(energy)) => {
                match form.kind {
                    Kind::Hex if keyword.trim_ascii().iter().all(u8::is_ascii_digit) => self.zeros.push(row.line),
                    Kind::Text if keyword.starts_with(b"#") => self.hashes.push(row.line),
                    _ => {}
                }
                if form.splits_energy(row) {
                    self.decimals.push(row.line);
                }
                Ok(Taken { line: row.line, word, energy })
            }
            (word, energy) => Err([word.err(), energy.err()].into_iter().flatten().collect()),
        }
    }

    /// A word, unless a line before has it.
    fn once(&mut self, word: Vec<u8>, line: usize) -> Result<Vec<u8>, String> {
        if let Some(before) = self.lines.get(&word) {
            let help = "a set has it once, delete one of the rows";
            return Err(format!("lines {before} and {line} have the same keyword, {}: {help}", shown(&word)));
        }
        self.lines.insert(word.clone(), line);
        Ok(word)
    }

    /// What the writer of the sheet should look at, although it was taken.
    fn notes(&self) -> Vec<Fault> {
        let notes = [noted(&self.zeros, ZEROS), noted(&self.hashes, HASHES), noted(&self.decimals, DECIMALS)];
        notes.into_iter().flatten().collect()
    }
}

impl Form {
    /// The cells of a row's keyword and of its energy, or why the row does not have them.
    fn keyword_and_energy<'a>(&self, row: &'a Row) -> Result<(&'a [u8], &'a [u8]), String> {
        let (Some(keyword), Some(energy)) = (row.cells.get(self.keyword), row.cells.get(self.energy)) else {
            return Err(self.too_few(row));
        };
        if row.cells.len() > self.cells && self.splits_energy(row) {
            let found = excerpt(&row.cells[self.energy..self.energy + 2].join(&b','));
            return Err(format!("{found} looks like an energy with a decimal comma: {WHOLE}"));
        }
        if let Some(place) = (self.columns..row.cells.len()).find(|&i| !blank(&row.cells[i])) {
            return Err(self.too_many(&row.cells[place], place + 1));
        }
        match row.cells.iter().find(|cell| !blank(cell)) {
            Some(other) if blank(keyword) && blank(energy) => {
                let found = excerpt(other);
                Err(format!("the row has {found}, but no keyword and no energy: fill them in, or empty the whole row"))
            }
            _ => Ok((keyword, energy)),
        }
    }

    /// Whether a row has a number on both sides of the comma behind its energy.
    fn splits_energy(&self, row: &Row) -> bool {
        let number = |cell: &Vec<u8>| !cell.is_empty() && cell.iter().all(u8::is_ascii_digit);
        let both = row.cells.get(self.energy..self.energy + 2);
        self.separator == b',' && both.is_some_and(|both| both.iter().all(number))
    }

    /// That a row has something in a cell that is in no column.
    fn too_many(&self, cell: &[u8], number: usize) -> String {
        let found = format!("cell {number} holds {}", excerpt(cell));
        match self.header {
            true => {
                format!("{found}, and the header ends with column {}: name this one too, or empty it", self.columns)
            }
            false => format!("{found}, and a row without a header is a keyword and an energy: {NAME_THEM}"),
        }
    }

    /// That a row ends before its keyword or its energy, as it does if its separator is not that of the file.
    fn too_few(&self, row: &Row) -> String {
        let count = match row.cells.len() {
            1 => "1 cell".to_string(),
            n => format!("{n} cells"),
        };
        let separator = match self.separator {
            b'\t' => "a tab",
            b';' => "a semicolon",
            _ => "a comma",
        };
        let told = format!("what separates cells in this file is {separator}, told from line {}", self.line);
        format!("the row has {count} and needs {}: {told}", self.keyword.max(self.energy) + 1)
    }
}

/// That a row was meant as a comment, if it was.
fn comment(row: &Row) -> Option<String> {
    let begins = row.cells.first().is_some_and(|cell| cell.trim_ascii_start().starts_with(b"#"));
    begins.then(|| NO_COMMENTS.to_string())
}

/// The bytes of a keyword cell, or what is wrong with it.
fn word(cell: &[u8], form: &Form) -> Result<Vec<u8>, String> {
    if let Some(inside) = inside_quotes(cell) {
        let (found, inside) = (excerpt(cell), excerpt(inside.as_bytes()));
        let help = "quotes belong to the csv, write";
        return Err(format!("{found} begins and ends with a quote: {help} {inside} without them"));
    }
    let word = match form.kind {
        Kind::Hex => hex_word(cell, form)?,
        Kind::Text => text_word(cell)?,
    };
    match word.len() {
        0 => Err(format!("the keyword is empty: write 1 to {LONGEST} bytes")),
        1..=LONGEST => Ok(word),
        n => Err(format!("the keyword {} has {n} bytes, and a keyword has 1 to {LONGEST}", excerpt(cell))),
    }
}

/// What stands between quotes in a cell that begins and ends with one.
fn inside_quotes(cell: &[u8]) -> Option<&str> {
    let is_quote = |c: char| QUOTES.contains(c);
    std::str::from_utf8(cell).ok()?.trim().strip_prefix(is_quote)?.strip_suffix(is_quote)
}

/// The bytes of a text cell.
fn text_word(cell: &[u8]) -> Result<Vec<u8>, String> {
    if let Some(other) = unprintable(cell) {
        let (found, other) = (excerpt(cell), excerpt(&other));
        return Err(format!("the text {found} holds {other}, which is not printable ASCII: write the keyword in hex"));
    }
    if cell.starts_with(b" ") || cell.ends_with(b" ") {
        let help = "leave it out, or write the keyword in hex if it is meant";
        return Err(format!("the text {} begins or ends with a space: {help}", excerpt(cell)));
    }
    Ok(cell.to_vec())
}

/// The bytes of a hex cell: pairs of digits, with spaces between or without, with 0x in front of a group or without.
fn hex_word(cell: &[u8], form: &Form) -> Result<Vec<u8>, String> {
    let word = hex_bytes(cell).map_err(|digits| bad_hex(cell, digits, form))?;
    match !form.header && !word.is_empty() && cell.trim_ascii().iter().all(u8::is_ascii_alphabetic) {
        true => Err(format!("{} can be text or hex: {NAME_THEM} (or give --text)", excerpt(cell))),
        false => Ok(word),
    }
}

/// The bytes of pairs of hex digits, or a group of digits that is none.
pub fn hex_bytes(cell: &[u8]) -> Result<Vec<u8>, &[u8]> {
    let mut bytes = Vec::new();
    for group in cell.split(|&byte| byte == b' ').filter(|group| !group.is_empty()) {
        let digits = group.strip_prefix(b"0x").or(group.strip_prefix(b"0X")).unwrap_or(group);
        let pairs: Option<Vec<u8>> = digits.chunks(2).map(hex_byte).collect();
        bytes.extend(pairs.filter(|pairs| !pairs.is_empty()).ok_or(digits)?);
    }
    Ok(bytes)
}

/// The byte of two hex digits.
fn hex_byte(pair: &[u8]) -> Option<u8> {
    let digit = |b: &u8| char::from(*b).to_digit(16).map(|d| d as u8);
    match pair {
        [high, low] => Some(16 * digit(high)? + digit(low)?),
        _ => None,
    }
}

/// What is wrong with a hex cell that has such a group of digits, and what it should have been.
fn bad_hex(cell: &[u8], digits: &[u8], form: &Form) -> String {
    let found = excerpt(cell);
    let wrong = match !digits.is_empty() && digits.iter().all(u8::is_ascii_hexdigit) {
        true => format!("{found} has an odd number of hex digits, and a byte is two of them"),
        false => format!("{found} is not pairs of hex digits"),
    };
    if is_number(cell) {
        return format!("{wrong}; {RETYPE}");
    }
    match (unprintable(cell), form.header) {
        (Some(_), _) => wrong,
        (None, true) => format!("{wrong}; if it is text, name the column `text`"),
        (None, false) => format!("{wrong}; if it is text, give --text, or a first row with `text` and `energy`"),
    }
}

/// Whether a cell looks like a number that a spreadsheet wrote.
fn is_number(cell: &[u8]) -> bool {
    let cell = cell.trim_ascii();
    let plain = cell.iter().all(|byte| byte.is_ascii_digit() || b".,eE+-".contains(byte));
    plain && cell.first().is_some_and(u8::is_ascii_digit)
}

/// The first character that is not printable ASCII, or the bytes that are no character.
fn unprintable(text: &[u8]) -> Option<Vec<u8>> {
    text.utf8_chunks().find_map(|chunk| match chunk.valid().chars().find(|c| !matches!(c, ' '..='~')) {
        Some(c) => Some(c.to_string().into_bytes()),
        None => Some(chunk.invalid().to_vec()).filter(|bytes| !bytes.is_empty()),
    })
}

/// The energy of a cell, or what is wrong with it.
fn energy(cell: &[u8]) -> Result<u32, String> {
    let text = String::from_utf8_lossy(cell);
    let digits = text.trim_matches(' ');
    let only = |others: &str| digits.chars().all(|c| c.is_ascii_digit() || others.contains(c));
    let found = excerpt(cell);
    if digits.is_empty() {
        return Err(format!("the energy is empty: write picojoules, 0 to {ENERGY}"));
    }
    if only("") {
        let energy =
            digits.parse::<u64>().ok().filter(|&energy| energy <= ENERGY).and_then(|energy| energy.try_into().ok());
        return energy.ok_or_else(|| format!("the energy {found} is too high: write picojoules, 0 to {ENERGY}"));
    }
    match only(".,") {
        true => Err(format!("the energy {found} has a decimal comma or point: {WHOLE}")),
        false => Err(format!("the energy {found} is not a whole number of picojoules: write digits alone")),
    }
}

/// A note of what lines have, if there are such lines.
fn noted(lines: &[usize], what: &str) -> Option<Fault> {
    let mut numbers: Vec<String> = lines.iter().take(NAMED).map(usize::to_string).collect();
    if lines.len() > NAMED {
        numbers.push(format!("and {} more", lines.len() - NAMED));
    }
    match lines {
        [] => None,
        [line] => Some(Fault::whole(&format!("line {line} has {what}"))),
        _ => Some(Fault::whole(&format!("lines {} have {what}", numbers.join(", ")))),
    }
}
