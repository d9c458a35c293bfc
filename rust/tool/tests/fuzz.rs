//! Random csvs, by a seed: never a panic, and never a set that reads back different from what was listed. Runs for
//! `BEZOWIK_FUZZ_SECONDS` (10 without it) from `BEZOWIK_FUZZ_SEED` (1 without it); each csv has a seed of its own,
//! which a failure prints, and which alone makes that csv again.

use bezowik::random::Random;
use bezowik::sets::record;
use bezowik_tool::cells::{rows, told, Fault};
use bezowik_tool::jobs::set::listed;
use bezowik_tool::sets::{keywords, set_file, Sheet, Taken};
use std::collections::HashSet;
use std::panic::{catch_unwind, resume_unwind, AssertUnwindSafe};
use std::time::{Duration, Instant};

/// Cells that look like mistakes, like names, or like each other, with a bar between.
const CELLS: &str = "hex|text|energy|note|Hex |TEXT|LM|ALM|AD|BEAD|ff|4c|4c4d|4C 4D|41|4142|0x4c|0x|10|102|40|55|0|65536|\
    4294967295|4294967296|40,5|40.0|1.234|4E+01|-4|+4|40 pJ|| | LM|LM |\"LM\"|'LM'|“LM”|#|# more|Größe|a,b|a;b|a\tb|a\nb|a\"b|\u{1b}[2J";

/// Bytes that mean something in a csv.
const MARKS: &[u8] = b"\",;\t\n\r \"4cA0x#.-\0\xef\xff\xfe\xfc";

/// A csv, whether it is read with --text, and the keywords that it must give where that is known.
struct Case {
    csv: Vec<u8>,
    text: bool,
    known: Option<Vec<(Vec<u8>, u32)>>,
}

/// A number that the environment gives.
fn from_environment(name: &str, otherwise: u64) -> u64 {
    std::env::var(name)
        .ok()
        .map_or(otherwise, |text| text.parse().unwrap_or_else(|_| panic!("{name} must be a number")))
}

#[test]
fn random_csvs() {
    let seconds = from_environment("BEZOWIK_FUZZ_SECONDS", 10);
    let first = from_environment("BEZOWIK_FUZZ_SEED", 1);
    println!("seed {first}, {seconds} seconds");
    let files = real_files();
    let (start, mut seed) = (Instant::now(), first);
    let (mut tried, mut accepted) = ([0u64; 5], [0u64; 5]);
    while start.elapsed() < Duration::from_secs(seconds) {
        let mut random = Random::new(seed);
        let kind = random.below(5);
        let case = case(&mut random, kind, &files);
        let taken = catch_unwind(AssertUnwindSafe(|| check(&case, &mut random))).unwrap_or_else(|panic| {
            println!("BEZOWIK_FUZZ_SEED={seed} makes it again: {} (--text {})", case.csv.escape_ascii(), case.text);
            resume_unwind(panic)
        });
        tried[kind] += 1;
        accepted[kind] += u64::from(taken);
        seed += 1;
    }
    println!("made, made and damaged, real and damaged, of cells, of bytes: {tried:?} tried, {accepted:?} accepted");
    assert_eq!(accepted[0], tried[0], "a csv that was made right");
    for kind in [1, 2, 3] {
        assert!(20 * accepted[kind] > tried[kind], "hardly any csv of kind {kind} was accepted: the run shows nothing");
    }
}

/// The files that a real spreadsheet program made.
fn real_files() -> Vec<Vec<u8>> {
    let folder = concat!(env!("CARGO_MANIFEST_DIR"), "/tests/spreadsheets");
    let entries = std::fs::read_dir(folder).expect("the folder");
    let mut names: Vec<_> = entries.map(|entry| entry.expect("an entry").path()).collect();
    names.sort();
    names.retain(|name| name.extension().is_some_and(|end| end == "csv"));
    names.iter().map(|name| std::fs::read(name).expect("the file")).collect()
}

// ---- what is read ----

/// A csv of a kind.
fn case(random: &mut Random, kind: usize, files: &[Vec<u8>]) -> Case {
    let text = random.once_in(4);
    match kind {
        0 => made(random),
        1 => {
            let Case { csv, text, .. } = made(random);
            Case { csv: damaged(random, csv), text, known: None }
        }
        2 => {
            let csv = files[random.below(files.len())].clone();
            Case { csv: damaged(random, csv), text, known: None }
        }
        3 => {
            let csv = of_cells(random);
            Case { csv: encoded(random, &csv), text, known: None }
        }
        _ => Case { csv: of_bytes(random), text, known: None },
    }
}

/// A csv that is right, in any dress, and its keywords.
fn made(random: &mut Random) -> Case {
    let (is_text, header) = (random.once_in(2), random.once_in(2));
    let known = random_keywords(random, is_text);
    let mut columns = vec!["keyword", "energy"];
    if header {
        let note = random.below(3);
        columns.splice(note..note, vec!["note"; random.below(3)]);
        columns.rotate_left(random.below(3));
    }
    let mut table: Vec<Vec<String>> = Vec::new();
    if header {
        let name = |column: &&str| column.replace("keyword", if is_text { "text" } else { "Hex" });
        table.push(columns.iter().map(name).collect());
    }
    for (word, energy) in &known {
        let cell = |column: &&str, random: &mut Random| match *column {
            "keyword" if is_text => String::from_utf8_lossy(word).into_owned(),
            "keyword" => hex_cell(random, word, header),
            "energy" => energy_cell(random, *energy),
            _ => any_cell(random),
        };
        table.push(columns.iter().map(|column| cell(column, random)).collect());
    }
    let csv = dressed(random, &table);
    Case { csv: encoded(random, &csv), text: is_text && (!header || random.once_in(2)), known: Some(known) }
}

/// Keywords of which no two are the same. Those of text have nothing in them that text may not have.
fn random_keywords(random: &mut Random, is_text: bool) -> Vec<(Vec<u8>, u32)> {
    let most = [1, 4, 12, 64][random.below(4)];
    let (number, letters) = (1 + random.below(most), [2, 20, 95][random.below(3)]);
    let mut seen = HashSet::new();
    let mut keywords = Vec::new();
    for _ in 0..number {
        let length = 1 + random.below(15);
        let word: Vec<u8> = match is_text {
            true => random.bytes(length, letters).iter().map(|byte| b' ' + (byte + 33) % 95).collect(),
            false => random.bytes(length, 256),
        };
        let quote = |byte: Option<&u8>| byte.is_some_and(|byte| b"\"'`".contains(byte));
        let quotes = word.len() > 1 && quote(word.first()) && quote(word.last());
        let name = ["hex", "text", "energy"].iter().any(|name| word.eq_ignore_ascii_case(name.as_bytes()));
        let wrong = is_text && (quotes || name || word.trim_ascii() != word);
        if !wrong && seen.insert(word.clone()) {
            keywords.push((word, random.number() as u32 >> random.below(32)));
        }
    }
    match keywords.is_empty() {
        true => vec![(b"LM".to_vec(), 40)],
        false => keywords,
    }
}

/// A word in hex, in any of the ways. Without a header it has a digit, for letters alone could be text.
fn hex_cell(random: &mut Random, word: &[u8], header: bool) -> String {
    let mut cell = String::new();
    for (i, byte) in word.iter().enumerate() {
        let digits = if random.once_in(2) { format!("{byte:02x}") } else { format!("{byte:02X}") };
        let joint = match i {
            0 => ["", "0x", " 0X"][random.below(3)],
            _ => ["", "", " ", "  ", " 0x"][random.below(5)],
        };
        cell += &format!("{joint}{digits}");
    }
    match !header && cell.bytes().all(|byte| byte.is_ascii_alphabetic()) {
        true => format!("0x{cell}"),
        false => cell,
    }
}

/// An energy in any of the ways.
fn energy_cell(random: &mut Random, energy: u32) -> String {
    let space = ["", "", " ", "  "];
    format!("{}{}{energy}{}", space[random.below(4)], ["", "", "0", "000"][random.below(4)], space[random.below(4)])
}

/// A csv of rows: with any separator, any line end, blank rows, and quotes where they must be or may be.
fn dressed(random: &mut Random, table: &[Vec<String>]) -> Vec<u8> {
    let separator = [",", ";", "\t"][random.below(3)];
    let end = ["\n", "\r\n", "\r"][random.below(3)];
    let (quote, blank) = (1 + random.below(4), random.once_in(3));
    let mut csv = String::new();
    for row in table {
        while blank && random.once_in(3) {
            csv += &format!("{}{end}", ["", " ", &separator.repeat(2), "\"\""][random.below(4)]);
        }
        let must = |cell: &String| cell.contains(['"', ',', ';', '\t', '\n', '\r']);
        let dress = |cell: &String, random: &mut Random| match must(cell) || random.once_in(quote) {
            true => format!("\"{}\"", cell.replace('"', "\"\"")),
            false => cell.clone(),
        };
        let cells: Vec<String> = row.iter().map(|cell| dress(cell, random)).collect();
        csv += &format!("{}{end}", cells.join(separator));
    }
    csv.into_bytes()
}

/// A csv in one of the encodings.
fn encoded(random: &mut Random, csv: &[u8]) -> Vec<u8> {
    let Ok(text) = std::str::from_utf8(csv) else { return csv.to_vec() };
    let utf16 = |bytes: fn(u16) -> [u8; 2]| [0xfeff].into_iter().chain(text.encode_utf16()).flat_map(bytes).collect();
    match random.below(6) {
        0 => [b"\xef\xbb\xbf", csv].concat(),
        1 => utf16(u16::to_le_bytes),
        2 => utf16(u16::to_be_bytes),
        _ => csv.to_vec(),
    }
}

/// A csv with a few bytes changed, put in, taken out, moved or cut off; now and then with none.
fn damaged(random: &mut Random, mut csv: Vec<u8>) -> Vec<u8> {
    for _ in 0..random.below(4) {
        if csv.is_empty() {
            break;
        }
        let at = random.below(csv.len());
        let to = (at + random.below(12)).min(csv.len());
        let mark = MARKS[random.below(MARKS.len())];
        match random.below(7) {
            0 => csv[at] = mark,
            1 => csv[at] ^= 1 << random.below(8),
            2 => csv.insert(at, mark),
            3 => drop(csv.drain(at..to)),
            4 => csv.truncate(at),
            5 => csv = [&csv[..to], &csv[at..]].concat(),
            _ => csv = [&csv[at..], &csv[..at]].concat(),
        }
    }
    csv
}

/// A csv of cells that are looked for: mostly a header, and mostly with the same number of cells in each row.
fn of_cells(random: &mut Random) -> Vec<u8> {
    let width = 2 + random.below(2);
    let mut table: Vec<Vec<String>> = Vec::new();
    if !random.once_in(3) {
        let header = [["text", "energy", "note"], ["hex", "energy", ""], ["energy", "text", ""]][random.below(3)];
        table.push(header[..width].iter().map(|name| name.to_string()).collect());
    }
    for _ in 0..1 + random.below(3) {
        let mut row: Vec<String> = (0..width).map(|_| any_cell(random)).collect();
        if !random.once_in(3) {
            row[0] = ["LM", "4c4d", "AD", "41", "ff 00", "40", "7", "0x4c"][random.below(8)].to_string();
            row[1] = ["40", "0", " 4294967295", "1", "AD", "LM"][random.below(6)].to_string();
        }
        table.push(row);
    }
    let csv = dressed(random, &table);
    match random.once_in(8) {
        true => damaged(random, csv),
        false => csv,
    }
}

/// One of the cells that are looked for.
fn any_cell(random: &mut Random) -> String {
    let cells: Vec<&str> = CELLS.split('|').collect();
    cells[random.below(cells.len())].to_string()
}

/// Bytes: any, or those that mean something in a csv.
fn of_bytes(random: &mut Random) -> Vec<u8> {
    let length = random.below(60);
    match random.once_in(3) {
        true => random.bytes(length, 256),
        false => (0..length).map(|_| MARKS[random.below(MARKS.len() - 5)]).collect(),
    }
}

// ---- what is checked ----

/// That a csv is read as it must be. Whether it was accepted.
fn check(case: &Case, random: &mut Random) -> bool {
    let lines = 1 + plain(&case.csv).iter().filter(|&&byte| byte == b'\n').count();
    check_rows(case);
    match keywords(&case.csv, case.text) {
        Ok(sheet) => {
            let word = |keyword: &Taken| (keyword.word.clone(), keyword.energy);
            let words: Vec<(Vec<u8>, u32)> = sheet.keywords.iter().map(word).collect();
            assert!(case.known.as_ref().is_none_or(|known| *known == words), "other keywords: {words:02x?}");
            check_sheet(&sheet, lines);
            check_again(case, &sheet, random);
            true
        }
        Err(faults) => {
            assert!(case.known.is_none(), "refused: {}", told("f", &faults));
            assert!(!faults.is_empty() && faults.is_sorted_by_key(|fault| fault.line));
            faults.iter().for_each(|fault| check_fault(fault, lines));
            assert!(told("f", &faults).lines().count() <= 21);
            false
        }
    }
}

/// The text of a csv with line feeds alone. Half a pair of bytes is dropped: such a file is refused.
fn plain(csv: &[u8]) -> Vec<u8> {
    let decode = |bytes: &[u8], unit: fn([u8; 2]) -> u16| {
        let units = bytes.chunks_exact(2).map(|pair| unit([pair[0], pair[1]]));
        let chars = char::decode_utf16(units).map(|c| c.unwrap_or('\u{fffd}'));
        chars.collect::<String>().replace("\r\n", "\n").replace('\r', "\n").into_bytes()
    };
    match csv {
        [0xff, 0xfe, rest @ ..] => decode(rest, u16::from_le_bytes),
        [0xfe, 0xff, rest @ ..] => decode(rest, u16::from_be_bytes),
        _ => {
            let text = csv.strip_prefix(b"\xef\xbb\xbf").unwrap_or(csv);
            let kept = (0..text.len()).filter(|&i| !text[i..].starts_with(b"\r\n"));
            kept.map(|i| if text[i] == b'\r' { b'\n' } else { text[i] }).collect()
        }
    }
}

/// That the rows of a csv whose quotes are right are those of a plain reader, by one of the separators.
fn check_rows(case: &Case) {
    let Ok(rows) = rows(&case.csv, &["hex", "text", "energy"]) else { return };
    let found: Vec<(usize, Vec<Vec<u8>>)> = rows.into_iter().map(|row| (row.line, row.cells)).collect();
    let text = plain(&case.csv);
    assert!(b",;\t".iter().any(|&by| found == plain_rows(&text, by)), "{found:?}");
}

/// The rows of a text whose quotes are right, read byte by byte.
fn plain_rows(text: &[u8], separator: u8) -> Vec<(usize, Vec<Vec<u8>>)> {
    let (mut rows, mut row, mut quoted, mut line) = (Vec::new(), (1, vec![Vec::new()]), false, 1);
    for (i, &byte) in text.iter().chain(b"\n").enumerate() {
        line += usize::from(byte == b'\n');
        match byte {
            b'"' => {
                quoted = !quoted;
                if quoted && text[..i].ends_with(b"\"") {
                    row.1.last_mut().expect("a cell").push(byte);
                }
            }
            b'\n' if !quoted => rows.push(std::mem::replace(&mut row, (line, vec![Vec::new()]))),
            _ if byte == separator && !quoted => row.1.push(Vec::new()),
            _ => row.1.last_mut().expect("a cell").push(byte),
        }
    }
    rows.retain(|(_, cells)| cells.iter().any(|cell| !cell.trim_ascii().is_empty()));
    rows
}

/// That a fault can be printed, and names a line of the file.
fn check_fault(fault: &Fault, lines: usize) {
    assert!(!fault.reason.is_empty() && !fault.reason.contains(char::is_control), "{fault:?}");
    assert!(fault.reason.chars().count() < 400, "{fault:?}");
    assert!(fault.line.is_none_or(|line| (1..=lines).contains(&line)), "{fault:?} of {lines} lines");
}

/// That the set of a sheet is a set, and that what is listed says the same.
fn check_sheet(sheet: &Sheet, lines: usize) {
    let set = set_file(&sheet.keywords);
    assert_eq!(bezowik::cost(&set, &[]).number, 0, "the library refuses the set");
    let numbers: Vec<usize> = sheet.keywords.iter().map(|keyword| keyword.line).collect();
    assert!(numbers.is_sorted_by(|a, b| a < b) && numbers.iter().all(|line| (1..=lines).contains(line)), "{numbers:?}");
    sheet.notes.iter().for_each(|note| check_fault(note, lines));
    let listed = listed(sheet);
    let back = read_listing(&listed);
    assert_eq!(back, sheet.keywords, "{listed}");
    assert_eq!(back.iter().flat_map(|keyword| record(&keyword.word, keyword.energy)).collect::<Vec<u8>>(), set);
}

/// The keywords of a listing, read as a person reads it: by its columns.
fn read_listing(listed: &str) -> Vec<Taken> {
    let mut lines = listed.lines();
    let head = lines.next().expect("a head");
    let (bytes, text) = (head.find("bytes").expect("bytes"), head.find("text").expect("text"));
    let mut keywords = Vec::new();
    for line in lines.take_while(|line| !line.is_empty()) {
        let (row, energy) = line.rsplit_once(' ').expect("an energy");
        let number = line[..bytes].split_whitespace().nth(1).expect("a line");
        let pairs = row[bytes..text].split_whitespace();
        let word: Vec<u8> = pairs.map(|pair| u8::from_str_radix(pair, 16).expect("a byte")).collect();
        let printable = word.iter().all(|byte| matches!(byte, b' '..=b'~'));
        let shown = if printable { String::from_utf8_lossy(&word).into_owned() } else { String::new() };
        assert_eq!(row[text..].trim_end(), shown.trim_end(), "{line}");
        keywords.push(Taken {
            line: number.parse().expect("a number"),
            word,
            energy: energy.parse().expect("a number"),
        });
    }
    keywords
}

/// That the keywords stay the same in a csv made of them, and in the same rows in another dress.
fn check_again(case: &Case, sheet: &Sheet, random: &mut Random) {
    let set = set_file(&sheet.keywords);
    let same = |csv: &[u8], text: bool| {
        let again =
            keywords(csv, text).unwrap_or_else(|faults| panic!("{}: {}", csv.escape_ascii(), told("f", &faults)));
        assert_eq!(set_file(&again.keywords), set, "{}", csv.escape_ascii());
    };
    let mut table = vec![vec!["hex".to_string(), "energy".to_string()]];
    table.extend(
        sheet.keywords.iter().map(|keyword| vec![hex_cell(random, &keyword.word, true), keyword.energy.to_string()]),
    );
    let csv = dressed(random, &table);
    same(&encoded(random, &csv), false);
    let rows = rows(&case.csv, &["hex", "text", "energy"]).expect("it was read before");
    let mut table: Vec<Vec<String>> = Vec::new();
    for row in rows {
        // behind a comma, one cell more than the header has can make a decimal comma of the comma behind an energy
        let filled = row.cells.iter().rposition(|cell| !cell.trim_ascii().is_empty()).map_or(0, |last| last + 1);
        table.push(row.cells[..filled].iter().map(|cell| String::from_utf8_lossy(cell).into_owned()).collect());
    }
    let csv = dressed(random, &table);
    same(&encoded(random, &csv), case.text);
}
