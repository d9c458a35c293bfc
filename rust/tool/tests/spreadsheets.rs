//! Files as LibreOffice exports them (`spreadsheets/make.py` makes them again), each with its set or its sentences.

use bezowik::sets::record;
use bezowik_tool::cells::told;
use bezowik_tool::sets::{keywords, set_file, Sheet};
use std::collections::BTreeSet;
use std::path::PathBuf;

/// Words and energies of a set, in order.
type Words = &'static [(&'static [u8], u32)];

/// Lines, and what is wrong with each.
type Sentences = Vec<(usize, String)>;

const TEXT: Words = &[(b"LM", 40), (b"ALM", 55), (b"AD", 90), (b"4c4d", 7)];
const HEX: Words = &[(b"LM", 40), (&[0xad], 55), (b"LMLA", 90), (&[0x00, 0xff], 0)];
const WHOLE: &str = "has a decimal comma or point: energies are whole picojoules, without decimals or separators";
const NAME_THEM: &str = "name the columns in a first row, `hex` or `text`, and `energy`";
const RETYPE: &str = "if a spreadsheet took it for a number, make its cells text and type it again";

/// The files that are taken, with --text or without, and their sets.
const TAKEN: [(&str, bool, Words); 18] = [
    ("text-default.csv", false, TEXT),
    ("text-default.csv", true, TEXT),
    ("text-utf8.csv", false, TEXT),
    ("text-quote-all.csv", false, TEXT),
    ("text-tab.csv", false, TEXT),
    ("text-utf16.csv", false, TEXT),
    ("text-utf16-tab.csv", false, TEXT),
    ("text-windows.csv", false, TEXT),
    ("hex-default.csv", false, HEX),
    ("hex-quote-all.csv", false, HEX),
    ("german-whole.csv", false, &[(b"LM", 40), (b"ALM", 55)]),
    ("german-whole-quote-all.csv", false, &[(b"LM", 40), (b"ALM", 55)]),
    ("no-header-hex.csv", false, &[(b"LM", 40), (b"ALM", 55), (&[0xff], 90)]),
    ("no-header-text.csv", true, &[(b"LM", 40), (b"ALM", 55), (b"AD", 90)]),
    ("note-lines-good.csv", false, &[(b"LM", 40), (b"ALM", 55)]),
    ("blank-rows.csv", false, &[(b"LM", 40), (&[0xad], 55)]),
    ("numbers.csv", false, &[(&[0x10], 40), (b"AB", 55), (&[0x00, 0x10], 90)]),
    ("no-header-hex.csv", true, &[(b"4c 4d", 40), (b"414c4d", 55), (b"0xff", 90)]),
];

/// A file of the folder.
fn file(name: &str) -> Vec<u8> {
    std::fs::read(folder().join(name)).unwrap_or_else(|error| panic!("{name}: {error}"))
}

/// The folder of the files.
fn folder() -> PathBuf {
    PathBuf::from(env!("CARGO_MANIFEST_DIR")).join("tests/spreadsheets")
}

/// What a file that must be taken gives.
fn sheet(name: &str, text: bool) -> Sheet {
    keywords(&file(name), text).unwrap_or_else(|faults| panic!("{}", told(name, &faults)))
}

/// The files that are refused, and their sentences: with --text or without, line, sentence.
fn refused() -> Vec<(&'static str, bool, Sentences)> {
    let hex = "if it is text, give --text, or a first row with `text` and `energy`";
    let quote = "begins and ends with a quote: quotes belong to the csv, write";
    let fraction = || vec![(2, format!("the energy `40,5` {WHOLE}")), (3, format!("the energy `55,0` {WHOLE}"))];
    let odd = |number: &str| format!("`{number}` has an odd number of hex digits, and a byte is two of them; {RETYPE}");
    let neither = "is neither a header nor a keyword with an energy";
    let other = format!("the first row `Sequence,Energy (pJ)` {neither}: {NAME_THEM}");
    let either = format!("`AD` can be text or hex: {NAME_THEM} (or give --text)");
    let scientific = "the energy `4E+01` is not a whole number of picojoules: write digits alone";
    let number = format!("`4E+10` is not pairs of hex digits; {RETYPE}");
    let quoted = |found: &str, inside: &str| format!("`{found}` {quote} `{inside}` without them");
    let text_and_hex = "--text takes the keywords as text, and the first row names a column `hex`";
    let no_text = |word: &str| format!("`{word}` is not pairs of hex digits; {hex}");
    let note = "the row has `still to be measured`, but no keyword and no energy: fill them in, or empty the whole row";
    let twice = "lines 6 and 7 have the same keyword, 41 (A): a set has it once, delete one of the rows";
    let stray = "cell 4 holds `checked`, and the header ends with column 2: name this one too, or empty it";
    vec![
        ("german-fraction.csv", false, fraction()),
        ("german-fraction-comma.csv", false, fraction()),
        ("german-fraction-not-as-shown.csv", false, fraction()),
        ("german-thousands.csv", false, vec![(2, format!("the energy `1.234` {WHOLE}"))]),
        ("scientific.csv", false, vec![(2, scientific.to_string())]),
        ("no-header-text.csv", false, vec![(1, no_text("LM")), (2, no_text("ALM")), (3, either)]),
        ("other-header.csv", false, vec![(1, other.clone())]),
        ("other-header.csv", true, vec![(1, other)]),
        ("typed-quotes.csv", false, vec![(2, quoted("\"LM\"", "LM")), (4, quoted("“AD”", "AD"))]),
        ("note-lines.csv", false, vec![(7, twice.to_string())]),
        ("only-a-note.csv", false, vec![(3, note.to_string())]),
        ("stray-cell.csv", false, vec![(3, stray.to_string())]),
        ("numbers-odd.csv", false, vec![(2, odd("102")), (3, odd("4")), (4, odd("40000000000")), (5, number)]),
        ("hex-default.csv", true, vec![(1, format!("{text_and_hex}: leave --text out, or name the column `text`"))]),
    ]
}

#[test]
fn taken_files() {
    for (name, text, words) in TAKEN {
        let sheet = sheet(name, text);
        let found: Vec<(&[u8], u32)> =
            sheet.keywords.iter().map(|keyword| (&keyword.word[..], keyword.energy)).collect();
        assert_eq!(found, words, "{name}");
        let records: Vec<u8> = words.iter().flat_map(|(word, energy)| record(word, *energy)).collect();
        assert_eq!(set_file(&sheet.keywords), records, "{name}");
        assert_eq!(sheet.notes.len(), usize::from(name == "numbers.csv"), "{name}");
    }
}

#[test]
fn refused_files() {
    for (name, text, sentences) in refused() {
        let faults = keywords(&file(name), text).expect_err(name);
        let told_line = |(line, sentence): &(usize, String)| format!("{name} line {line}: {sentence}");
        let expected: Vec<String> = sentences.iter().map(told_line).collect();
        assert_eq!(told(name, &faults), expected.join("\n"));
    }
}

/// Numbers typed in place of hex (0010 became 10) are taken with a note, for the file does not tell any more.
#[test]
fn numbers_give_a_note() {
    let note = "lines 2, 3 have hex of digits alone, and a spreadsheet drops the zeros in front of a number: \
        if bytes are missing, write spaces between them (41 42) or 0x in front (0x41)";
    assert_eq!(sheet("numbers.csv", false).notes[0].reason, note);
}

#[test]
fn lines_of_rows() {
    let lines = |name: &str| sheet(name, false).keywords.iter().map(|keyword| keyword.line).collect::<Vec<_>>();
    assert_eq!(lines("blank-rows.csv"), [5, 7]);
    assert_eq!(lines("note-lines-good.csv"), [3, 6]);
    assert_eq!(lines("text-utf16.csv"), [2, 3, 4, 5]);
}

/// The exports are what they are meant to be: had LibreOffice ignored an option, the file would show nothing.
#[test]
fn exports_differ() {
    let begins = |name: &str, with: &[u8]| assert!(file(name).starts_with(with), "{name}");
    begins("text-utf16.csv", b"\xff\xfet\0e\0x\0t\0,\0");
    begins("text-utf16-tab.csv", b"\xff\xfe\"\0t\0e\0x\0t\0\"\0\t\0");
    begins("text-quote-all.csv", b"\"text\",\"energy\",\"note\"\n\"LM\",40,");
    begins("german-whole.csv", b"hex;energy;Gr\xc3\xb6\xc3\x9fe\n4c 4d;40;3,5\n");
    begins("typed-quotes.csv", b"text,energy\n\"\"\"LM\"\"\",40\n");
    begins("no-header-text.csv", b"\"LM\",40\n");
    assert!(file("text-windows.csv").windows(3).any(|bytes| bytes == b"f\xfcr"));
}

#[test]
fn every_file_is_used() {
    let entries = std::fs::read_dir(folder()).expect("the folder is there");
    let names = entries.map(|entry| entry.expect("an entry").file_name().to_string_lossy().into_owned());
    let files: BTreeSet<String> = names.filter(|name| name.ends_with(".csv")).collect();
    let taken = TAKEN.iter().map(|(name, ..)| name.to_string());
    let used: BTreeSet<String> = taken.chain(refused().iter().map(|(name, ..)| name.to_string())).collect();
    assert_eq!(files, used);
}
