//! A csv as rows of cells: its encoding, its line ends, its separator and its quotes.

use csv::{ByteRecord, ReaderBuilder};
use std::io::Cursor;

/// The most faults that are told one by one.
const TOLD: usize = 20;

/// The most characters that a message repeats of a file.
const REPEATED: usize = 40;

/// The most cells that are taken from a file, and the most faults: a file of junk is no burden.
const MOST: usize = 250_000;

/// The most bytes of a first row in which names are looked for.
const FIRST: usize = 1 << 16;

/// What may stand between cells. Where nothing else tells, the last of them that a file's first row has.
const SEPARATORS: [u8; 3] = [b',', b';', b'\t'];

/// The beginnings of files that are no csv but a spreadsheet: .xlsx and .ods, and .xls.
const SPREADSHEETS: [&[u8]; 2] = [b"PK\x03\x04", b"\xd0\xcf\x11\xe0"];

/// What is wrong in a line, or in the file as a whole.
#[derive(Clone, Debug, PartialEq, Eq)]
pub struct Fault {
    pub line: Option<usize>,
    pub reason: String,
}

impl Fault {
    /// A fault in a line.
    pub(crate) fn at(line: usize, reason: String) -> Fault {
        Fault { line: Some(line), reason }
    }

    /// A fault of the file as a whole.
    pub(crate) fn whole(reason: &str) -> Fault {
        Fault { line: None, reason: reason.to_string() }
    }
}

/// The cells of a row, and the line where it begins.
#[derive(Clone, Debug, PartialEq, Eq)]
pub struct Row {
    pub line: usize,
    pub cells: Vec<Vec<u8>>,
}

/// What a csv holds: the rows that can be told, and what is wrong with the others.
pub struct Read {
    pub separator: u8,
    pub rows: Vec<Row>,
    pub faults: Vec<Fault>,
}

/// The rows of a csv that have anything in them, or everything that keeps the file from being a csv. A first row with
/// one of the names tells the separator.
pub fn rows(csv: &[u8], names: &[&str]) -> Result<Vec<Row>, Vec<Fault>> {
    let read = read(csv, names);
    match read.faults.is_empty() {
        true => Ok(read.rows),
        false => Err(read.faults),
    }
}

/// The rows of a csv, as far as it has any, beside its faults: for a reader that tells the faults of its own with them.
pub fn read(csv: &[u8], names: &[&str]) -> Read {
    let text = match decoded(csv) {
        Ok(text) => with_line_feeds(&text),
        Err(reason) => return Read { separator: b',', rows: Vec::new(), faults: vec![Fault::whole(reason)] },
    };
    let separator = separator(&text, names);
    let (mut lines, mut sound, mut faults) = (Vec::new(), Vec::new(), Vec::new());
    for piece in (Scanner { text: &text, at: 0, line: 1, separator }) {
        match piece.cells {
            Err(_) if faults.len() == MOST => return too_long(separator),
            Err(fault) => faults.push(fault),
            Ok(cells) if cells > MOST => return too_long(separator),
            Ok(_) => {
                lines.push(piece.line);
                sound.extend_from_slice(piece.bytes);
                sound.push(b'\n');
            }
        }
    }
    match filled_rows(&lines, &sound, separator) {
        Some(rows) => Read { separator, rows, faults },
        None => too_long(separator),
    }
}

/// That a file has too many cells, or too many faults.
fn too_long(separator: u8) -> Read {
    let reason = format!("the file has more than {MOST} cells or faults, and is too long to be read as a csv");
    Read { separator, rows: Vec::new(), faults: vec![Fault::whole(&reason)] }
}

/// The rows that have anything in them, of text whose quotes are right and whose rows begin at these lines, unless they
/// have too many cells.
fn filled_rows(lines: &[usize], sound: &[u8], separator: u8) -> Option<Vec<Row>> {
    let (mut rows, mut cells) = (Vec::new(), 0);
    for (&line, record) in lines.iter().zip(records(sound, separator)) {
        if record.iter().all(blank) {
            continue;
        }
        cells += record.len();
        if cells > MOST {
            return None;
        }
        rows.push(Row { line, cells: record.iter().map(<[u8]>::to_vec).collect() });
    }
    Some(rows)
}

/// The faults as one message, for a file name that is safe to print. A file that is no csv at all may have very many.
pub fn told(file: &str, faults: &[Fault]) -> String {
    let one = |fault: &Fault| match fault.line {
        Some(line) => format!("{file} line {line}: {}", fault.reason),
        None => format!("{file}: {}", fault.reason),
    };
    let mut lines: Vec<String> = faults.iter().take(TOLD).map(one).collect();
    if faults.len() > TOLD {
        lines.push(format!("and {} more", faults.len() - TOLD));
    }
    lines.join("\n")
}

/// Whether a cell has nothing in it that can be seen.
pub(crate) fn blank(cell: &[u8]) -> bool {
    cell.trim_ascii().is_empty()
}

/// Input that a message repeats: its beginning, with nothing in it that a terminal would obey or that cannot be seen.
pub(crate) fn excerpt(text: &[u8]) -> String {
    let mut parts: Vec<String> = Vec::new();
    for chunk in text.utf8_chunks().take(REPEATED + 1) {
        parts.extend(chunk.valid().chars().take(REPEATED + 1).map(seen));
        parts.extend(chunk.invalid().iter().map(|byte| format!("\\x{byte:02x}")));
    }
    let mut left = REPEATED;
    let fitting = parts.iter().take_while(|part| left.checked_sub(part.chars().count()).map(|n| left = n).is_some());
    let shown: Vec<&str> = fitting.map(String::as_str).collect();
    match shown.len() < parts.len() {
        true => format!("`{}...`", shown.concat()),
        false => format!("`{}`", shown.concat()),
    }
}

/// A character as a message shows it.
fn seen(c: char) -> String {
    match c {
        '"' | '\'' => c.to_string(),
        _ => c.escape_debug().to_string(),
    }
}

/// The text of a file without its byte order mark, in UTF-8 where it was UTF-16, or why the file is no csv.
fn decoded(csv: &[u8]) -> Result<Vec<u8>, &'static str> {
    if SPREADSHEETS.iter().any(|beginning| csv.starts_with(beginning)) {
        return Err("this is a spreadsheet file and no csv: export the sheet as csv, in UTF-8");
    }
    let text = match csv {
        [0xef, 0xbb, 0xbf, rest @ ..] => rest.to_vec(),
        [0xff, 0xfe, rest @ ..] => from_utf16(rest, u16::from_le_bytes)?,
        [0xfe, 0xff, rest @ ..] => from_utf16(rest, u16::from_be_bytes)?,
        _ => csv.to_vec(),
    };
    match text.contains(&0) {
        true => {
            Err("the file has zero bytes: it is UTF-16 without a mark, or no csv; export the sheet as csv, in UTF-8")
        }
        false => Ok(text),
    }
}

/// Text from UTF-16 in one of its two byte orders. What is half a character stays visible as one that no keyword has.
fn from_utf16(bytes: &[u8], unit: fn([u8; 2]) -> u16) -> Result<Vec<u8>, &'static str> {
    if bytes.len() % 2 == 1 {
        return Err("the file is cut short, for it is UTF-16 and has an odd number of bytes: export the sheet again");
    }
    let units: Vec<u16> = bytes.chunks_exact(2).map(|pair| unit([pair[0], pair[1]])).collect();
    Ok(String::from_utf16_lossy(&units).into_bytes())
}

/// The text with a line feed for each line end of whatever kind.
fn with_line_feeds(text: &[u8]) -> Vec<u8> {
    let mut result = Vec::with_capacity(text.len());
    let mut before = 0;
    for &byte in text {
        match (before, byte) {
            (b'\r', b'\n') => {}
            (_, b'\r') => result.push(b'\n'),
            _ => result.push(byte),
        }
        before = byte;
    }
    result
}

/// The separator that the first row tells: of those that it has, the one by which most of its cells are names.
fn separator(text: &[u8], names: &[&str]) -> u8 {
    let row = first_row(text);
    let row = &row[..row.len().min(FIRST)];
    let is_name = |cell: &&[u8]| names.iter().any(|name| cell.trim_ascii().eq_ignore_ascii_case(name.as_bytes()));
    let named = |by: u8| records(row, by).next().map_or(0, |record| record.iter().filter(is_name).count());
    let there = |by: u8| outside_quotes(row).any(|(_, byte)| byte == by);
    SEPARATORS.into_iter().filter(|&by| there(by)).max_by_key(|&by| named(by)).unwrap_or(b',')
}

/// The first row that has a cell with anything in it, whatever the separator is.
fn first_row(text: &[u8]) -> &[u8] {
    let mut start = 0;
    let ends = outside_quotes(text).filter(|&(_, byte)| byte == b'\n').map(|(at, _)| at);
    for end in ends.chain([text.len()]) {
        let row = &text[start..end];
        if !row.iter().all(|byte| byte.is_ascii_whitespace() || b",;\"".contains(byte)) {
            return row;
        }
        start = end + 1;
    }
    b""
}

/// The places and bytes of a text that stand outside quotes.
fn outside_quotes(text: &[u8]) -> impl Iterator<Item = (usize, u8)> + '_ {
    let mut quoted = false;
    text.iter().copied().enumerate().filter(move |&(_, byte)| {
        quoted ^= byte == b'"';
        !quoted && byte != b'"'
    })
}

/// The cells of each row that is not empty, of text whose quotes are right.
fn records(text: &[u8], separator: u8) -> impl Iterator<Item = ByteRecord> {
    // the reader drops a byte order mark in front of all, and here that is a part of a cell
    let input = Cursor::new([b"\n", text].concat());
    let mut builder = ReaderBuilder::new();
    let reader = builder.delimiter(separator).has_headers(false).flexible(true).from_reader(input);
    reader.into_byte_records().map_while(Result::ok)
}

/// A row that is not empty, as it stands in the text, and the number of its cells, or what is wrong with its quotes.
struct Piece<'a> {
    line: usize,
    bytes: &'a [u8],
    cells: Result<usize, Fault>,
}

/// What ends a cell.
enum End {
    Cell,
    Row,
}

/// Finds the rows of a text, and the quotes in them that RFC 4180 does not have.
struct Scanner<'a> {
    text: &'a [u8],
    at: usize,
    line: usize,
    separator: u8,
}

impl<'a> Iterator for Scanner<'a> {
    type Item = Piece<'a>;

    /// The next row that is not empty.
    fn next(&mut self) -> Option<Piece<'a>> {
        while self.peek() == Some(b'\n') {
            self.step();
        }
        self.peek()?;
        let (from, line) = (self.at, self.line);
        let cells = self.row();
        while self.peek().is_some_and(|byte| byte != b'\n') {
            self.step();
        }
        Some(Piece { line, bytes: &self.text[from..self.at], cells })
    }
}

impl Scanner<'_> {
    /// The byte that comes next.
    fn peek(&self) -> Option<u8> {
        self.text.get(self.at).copied()
    }

    /// Goes over a byte.
    fn step(&mut self) {
        self.line += usize::from(self.peek() == Some(b'\n'));
        self.at += 1;
    }

    /// Goes over a row and counts its cells, up to its line end or to a fault.
    fn row(&mut self) -> Result<usize, Fault> {
        let mut cells = 0;
        loop {
            let end = match self.peek() {
                Some(b'"') => self.quoted()?,
                _ => self.bare()?,
            };
            cells += 1;
            match end {
                End::Cell => self.step(),
                End::Row => return Ok(cells),
            }
        }
    }

    /// Goes over a cell without quotes.
    fn bare(&mut self) -> Result<End, Fault> {
        let from = self.at;
        loop {
            if let Some(end) = self.end() {
                return Ok(end);
            }
            if self.peek() == Some(b'"') {
                return Err(self.within_bare(from));
            }
            self.step();
        }
    }

    /// That a cell without quotes around it has one in it.
    fn within_bare(&self, from: usize) -> Fault {
        let found = excerpt(&self.text[from..self.rest_of_line()]);
        let help = "put the whole cell in quotes and write each quote in it twice";
        Fault::at(self.line, format!("a quote within a cell that does not begin with one, {found}: {help}"))
    }

    /// Goes over a cell in quotes.
    fn quoted(&mut self) -> Result<End, Fault> {
        let (opened, from) = (self.line, self.at);
        self.step();
        loop {
            match self.peek() {
                None => {
                    let found = excerpt(&self.text[from..]);
                    return Err(Fault::at(
                        opened,
                        format!("the quote that opens here, {found}, is never closed: close it"),
                    ));
                }
                Some(b'"') if self.text.get(self.at + 1) == Some(&b'"') => self.at += 2,
                Some(b'"') => {
                    self.step();
                    return self.end().ok_or_else(|| self.behind_quote(opened));
                }
                Some(_) => self.step(),
            }
        }
    }

    /// What ends a cell here, if it ends.
    fn end(&self) -> Option<End> {
        match self.peek() {
            None | Some(b'\n') => Some(End::Row),
            Some(byte) if byte == self.separator => Some(End::Cell),
            Some(_) => None,
        }
    }

    /// That a cell goes on behind its closing quote.
    fn behind_quote(&self, opened: usize) -> Fault {
        let found = excerpt(&self.text[self.at..self.rest_of_line()]);
        let place = match opened == self.line {
            true => String::new(),
            false => format!(" in line {}", self.line),
        };
        let help = "a quote within a quoted cell is written twice";
        Fault::at(opened, format!("the quote that opens here is closed{place} and {found} stands behind it: {help}"))
    }

    /// Where the line that is read now ends.
    fn rest_of_line(&self) -> usize {
        let rest = &self.text[self.at..];
        self.at + rest.iter().position(|&byte| byte == b'\n').unwrap_or(rest.len())
    }
}
