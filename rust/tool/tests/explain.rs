//! `explain`: what it prints of rows and bytes, for any set beside the library's numbers; what it refuses; and the
//! command that `check` names.

#[path = "../../tests/common/mod.rs"]
mod common;
mod folder;

use bezowik::random::Random;
use bezowik::sets::{record, Keyword};
use bezowik::{Table, BYTES, ROW};
use bezowik_tool::drawings::under;
use bezowik_tool::faults::byte_shown;
use bezowik_tool::jobs::explain::{of_byte, of_row};
use bezowik_tool::keywords::keywords;
use bezowik_tool::text::{hex, shown, suffix, text};
use bezowik_tool::Failure;
use common::{bench_set, random_set};
use folder::{bench_table, Folder};
use std::process::Command;

const INNER_IS: &str = "the least n from 1 up such that some keyword has the suffix with exactly n bytes after it";
const EDGE_IS: &str =
    "the least n from 1 up such that some string made of the suffix and n further bytes ends with a keyword";

/// What is told of a number of which only n = 1 was tried, in vain.
const CAPPED: &str = "  n = 1: no keyword\n  n = 2: the cap, m\n";

/// What is printed of a row: its two first lines, each number with what is told of it, and the cap drawn, or nothing.
fn row_told(head: [&str; 2], inner: (u8, &str), edge: (u8, &str), cap: &str) -> String {
    let number = |name: &str, what: &str, (n, told): (u8, &str)| format!("\n{name} = {n}: {what}\n{told}");
    let numbers = number("inner", INNER_IS, inner) + &number("edge", EDGE_IS, edge);
    format!("{}\n{}\n{numbers}{cap}", head[0], head[1])
}

#[test]
fn bench_rows() {
    let folder = Folder::bench("bench_rows");
    let shortest = "m = 2: the shortest keyword is 0, 4c 4d (LM), and no number is above its length";
    let cap = "
at the cap keyword 0 stands whole behind the suffix:
  suffix     4c 41 | .. ..    LA|..
  keyword 0        | 4c 4d      |LM
";
    let la = row_told(["row 5: suffix 4c 41 (LA)", shortest], (2, CAPPED), (2, CAPPED), cap);
    for written in ["\"LA\"", "4c 41", "4c41", "0x4c41", " 4C  0x41 "] {
        assert_eq!(folder.done_with(&["explain", "w.bin", written]), la, "{written}");
    }
    let inner = "  n = 1: keyword 0, 4c 4d (LM)
    suffix        | ..     |.
    keyword 0  4c | 4d    L|M
";
    let cap = "
at the cap keyword 0 stands whole behind the suffix:
  suffix     | .. ..    |..
  keyword 0  | 4c 4d    |LM
";
    let empty = row_told(["row 0: the empty suffix", shortest], (1, inner), (2, CAPPED), cap);
    for written in ["", "\"\"", " "] {
        assert_eq!(folder.done_with(&["explain", "w.bin", written]), empty, "{written:?}");
    }
}

#[test]
fn bench_byte() {
    let folder = Folder::bench("bench_byte");
    let capped: String = (3..16).map(|depth| format!("   {depth:2}    2{:29}the cap, m\n", "")).collect();
    let expected = format!(
        "byte 4c (L)
m = 2: the shortest keyword is 0, 4c 4d (LM), and no number is above its length

far at a depth: the least n from 1 up such that some keyword has the byte with exactly depth + n bytes after it
depth  far  no  keyword        text    bytes after it
    0    1   0  [4c] 4d        [L]M    0 + 1
    1    2                             the cap, m
    2    1   2  [4c] 4d 4c 41  [L]MLA  2 + 1
{capped}"
    );
    for written in ["4c", "4C", "0x4c", " 4c", "\"L\""] {
        assert_eq!(folder.done_with(&["explain", "w.bin", "--byte", written]), expected, "{written}");
    }
}

/// Keywords that stop the search: for both numbers of a row, and for one of them.
#[test]
fn keywords_that_stop() {
    let folder = Folder::new("keywords_that_stop");
    folder.write("k.bin", &[record(b"AB", 1), record(b"BA", 2)].concat());
    let shortest = "m = 2: the shortest keyword is 0, 41 42 (AB), and no number is above its length";
    let stopped = "  n = 1: keyword 1, 42 41 (BA)
    suffix     42 | ..    B|.
    keyword 1  42 | 41    B|A
";
    let both = row_told(["row 1: suffix 42 (B)", shortest], (1, stopped), (1, stopped), "");
    assert_eq!(folder.done("explain k.bin 42"), both);
    let stopped = "  n = 1: keyword 1, 42 41 (BA)
    suffix     41 42 | ..    AB|.
    keyword 1     42 | 41     B|A
";
    let cap = "
at the cap keyword 0 stands whole behind the suffix:
  suffix     41 42 | .. ..    AB|..
  keyword 0        | 41 42      |AB
";
    let edge = row_told(["row 2: suffix 41 42 (AB)", shortest], (2, CAPPED), (1, stopped), cap);
    assert_eq!(folder.done("explain k.bin \"AB\""), edge);
}

/// A set in which nothing is tried, whose shortest keyword is not the first, and which has no text.
#[test]
fn a_keyword_of_one_byte() {
    let folder = Folder::new("a_keyword_of_one_byte");
    folder.write("k.bin", &[record(b"\x01\x02", 1), record(b"\x02", 2), record(b"B", 3)].concat());
    let shortest = "m = 1: the shortest keyword is 1, 02, and no number is above its length";
    let untried = (1, "  n = 1: the cap, m\n");
    let cap = "
at the cap keyword 1 stands whole behind the suffix:
  suffix     01 02 | ..
  keyword 1        | 02
";
    let expected = row_told(["row 2: suffix 01 02", shortest], untried, untried, cap);
    assert_eq!(folder.done("explain k.bin 0102"), expected);
    let byte = folder.done("explain k.bin --byte 02");
    assert!(byte.starts_with("byte 02\nm = 1: the shortest keyword is 1, 02, and "), "{byte}");
    assert_eq!(byte.matches(&format!("    1{:21}the cap, m\n", "")).count(), 16, "{byte}");
}

/// Keywords longer than the suffix, shorter than the distance, without a text, and with a space at the end.
#[test]
fn drawings() {
    assert_eq!(under(b"", 1, 0, b"LM"), ["suffix        | ..     |.", "keyword 0  4c | 4d    L|M"]);
    let longer = ["suffix            4d | .. ..      M|..", "keyword 12  41 4c 4d | 4c 41    ALM|LA"];
    assert_eq!(under(b"M", 2, 12, b"ALMLA"), longer);
    assert_eq!(under(b"A", 3, 7, b"M"), ["suffix     41 | .. .. ..    A|...", "keyword 7     |       4d     |  M"]);
    assert_eq!(under(b"\x01", 1, 7, b"M"), ["suffix     01 | ..", "keyword 7     | 4d"]);
    assert_eq!(under(b"M", 1, 7, b"\x01"), ["suffix     4d | ..", "keyword 7     | 01"]);
    assert_eq!(under(b"L", 2, 7, b"M "), ["suffix     4c | .. ..    L|..", "keyword 7     | 4d 20     |M"]);
}

// ---- random sets ----

/// A column of a drawing.
#[derive(Clone, Copy, Debug, PartialEq, Eq)]
enum Cell {
    Blank,
    Further,
    Byte(u8),
}

/// How often a search ended at the cap and by a keyword, and how many of those keywords had a text.
#[derive(Default)]
struct Ends {
    caps: usize,
    stops: usize,
    texts: usize,
}

/// A set whose shortest keyword may be long: of letters, of bytes that are no text, or of both.
fn set_of(seed: u64) -> Vec<u8> {
    let mut random = Random::new(seed);
    let all = keywords(&random_set(&mut random));
    let letters = [b"ABCD", b"ABCD", b"\x00\x01\x02\x03", b"AB\x02\x03"][seed as usize % 4];
    let least = (1 + random.below(7)).min(all.iter().map(|k| k.word.len()).max().expect("a keyword"));
    let kept = all.iter().filter(|k| k.word.len() >= least);
    let word = |k: &Keyword| k.word.iter().map(|&byte| letters[usize::from(byte)]).collect::<Vec<u8>>();
    kept.flat_map(|k| record(&word(k), k.energy as u32)).collect()
}

/// The first keyword that has v with exactly n bytes after it.
fn holds(keywords: &[Keyword], v: &[u8], n: usize) -> Option<usize> {
    let has = |word: &[u8]| (0..word.len()).any(|at| word[at..].starts_with(v) && at + v.len() + n == word.len());
    keywords.iter().position(|k| has(&k.word))
}

/// The first keyword that v and n further bytes can end with: each of its bytes is a further one, or v's.
fn ends(keywords: &[Keyword], v: &[u8], n: usize) -> Option<usize> {
    let fits = |word: &[u8]| {
        word.iter().rev().enumerate().all(|(back, byte)| back < n || v.iter().rev().nth(back - n) == Some(byte))
    };
    keywords.iter().position(|k| fits(&k.word))
}

/// The columns of a drawing's line behind its label, up to the bar and behind it. The text beside the hex, where it
/// stands, says the same.
fn columns_of(line: &str, n: usize, as_text: bool) -> (Vec<Cell>, Vec<Cell>) {
    let bar = line.find('|').expect("a bar");
    let cell = |hex: &str| match hex {
        "  " => Cell::Blank,
        ".." => Cell::Further,
        digits => Cell::Byte(u8::from_str_radix(digits, 16).expect("a byte")),
    };
    let seen = |cell: &Cell| match cell {
        Cell::Blank => ' ',
        Cell::Further => '.',
        Cell::Byte(byte) => char::from(*byte),
    };
    let left: Vec<Cell> = (0..bar / 3).map(|i| cell(&line[3 * i..3 * i + 2])).collect();
    let right: Vec<Cell> = (0..n).map(|i| cell(&line[bar + 2 + 3 * i..bar + 4 + 3 * i])).collect();
    let texts: String = left.iter().map(seen).chain(['|']).chain(right.iter().map(seen)).collect();
    let behind = if as_text { format!("    {texts}") } else { String::new() };
    assert_eq!((bar % 3, &line[bar + 1 + 3 * n..]), (0, behind.as_str()), "{line}");
    (left, right)
}

/// That two lines draw a suffix, and under it the whole of a keyword that ends n bytes behind it, and that the two
/// agree wherever both have a byte. The columns up to the bar.
fn drawn(lines: &[&str], indent: &str, v: &[u8], n: usize, number: usize, word: &[u8]) -> (Vec<Cell>, Vec<Cell>) {
    let label = format!("keyword {number}");
    let as_text = text(v).is_some() && text(word).is_some();
    let above = lines[0].strip_prefix(&format!("{indent}{:<1$}  ", "suffix", label.len())).expect("the suffix");
    let below = lines[1].strip_prefix(&format!("{indent}{label}  ")).expect("the keyword");
    let (suffix_left, suffix_right) = columns_of(above, n, as_text);
    let (word_left, word_right) = columns_of(below, n, as_text);
    assert_eq!(suffix_left.len(), word_left.len(), "the bars");
    assert_eq!(suffix_right, vec![Cell::Further; n]);
    let bytes = |bytes: &[u8]| bytes.iter().map(|&byte| Cell::Byte(byte)).collect::<Vec<_>>();
    let known = |cells: &[Cell]| cells.iter().copied().skip_while(|&cell| cell == Cell::Blank).collect::<Vec<_>>();
    assert_eq!(known(&suffix_left), bytes(v));
    assert_eq!(known(&[word_left.clone(), word_right].concat()), bytes(word));
    for pair in suffix_left.iter().zip(&word_left) {
        assert!(pair.0 == pair.1 || *pair.0 == Cell::Blank || *pair.1 == Cell::Blank, "{lines:#?}");
    }
    (suffix_left, word_left)
}

/// What is printed of one number of a row: each distance, and the first keyword that stops, drawn. The columns up to
/// the bar, or nothing where it is the cap.
fn check_number(
    lines: &[&str],
    keywords: &[Keyword],
    v: &[u8],
    first: impl Fn(usize) -> Option<usize>,
    tally: &mut Ends,
) -> Option<(Vec<Cell>, Vec<Cell>)> {
    let m = keywords.iter().map(|k| k.word.len()).min().expect("a keyword");
    let stop = (1..m).find_map(|n| first(n).map(|keyword| (n, keyword)));
    let n = stop.map_or(m, |(n, _)| n);
    for n in 1..n {
        assert_eq!(lines[n - 1], format!("  n = {n}: no keyword"));
    }
    let Some((_, keyword)) = stop else {
        assert_eq!(lines[n - 1..], [format!("  n = {n}: the cap, m")]);
        tally.caps += 1;
        return None;
    };
    let word = &keywords[keyword].word;
    assert_eq!(lines[n - 1], format!("  n = {n}: keyword {keyword}, {}", shown(word)));
    assert_eq!(lines.len(), n + 2, "{lines:#?}");
    tally.stops += 1;
    tally.texts += usize::from(text(word).is_some());
    Some(drawn(&lines[n..], "    ", v, n, keyword, word))
}

/// What is printed of a row: the numbers that the library made, and what `check_number` says of each; the cap is drawn
/// where it counts, and only there.
fn check_row(keywords: &[Keyword], table: &Table, row: usize, tally: &mut [Ends; 2]) {
    let record = &table.rows[ROW * row..ROW * (row + 1)];
    let v = &record[1..1 + usize::from(record[0])];
    let printed = of_row(keywords, table, row).ok().expect("the tool finds the library's numbers");
    assert!(printed.ends_with('\n') && printed.lines().all(|line| line.trim_end() == line), "{printed}");
    let parts: Vec<Vec<&str>> = printed.trim_end().split("\n\n").map(|part| part.lines().collect()).collect();
    let lengths: Vec<usize> = keywords.iter().map(|k| k.word.len()).collect();
    let m = *lengths.iter().min().expect("a keyword");
    let shortest = lengths.iter().position(|&length| length == m).expect("the shortest");
    let word = &keywords[shortest].word;
    let told =
        format!("m = {m}: the shortest keyword is {shortest}, {}, and no number is above its length", shown(word));
    assert_eq!(parts[0], [format!("row {row}: {}", suffix(v)), told]);
    assert_eq!(parts[1][0], format!("inner = {}: {INNER_IS}", record[16]));
    assert_eq!(parts[2][0], format!("edge = {}: {EDGE_IS}", record[17]));
    let [inner_tally, edge_tally] = tally;
    let inner = check_number(&parts[1][1..], keywords, v, |n| holds(keywords, v, n), inner_tally);
    let edge = check_number(&parts[2][1..], keywords, v, |n| ends(keywords, v, n), edge_tally);
    if let Some((suffix_left, word_left)) = &inner {
        assert!(!suffix_left.is_empty() && !word_left.contains(&Cell::Blank), "the keyword has the suffix: {printed}");
    }
    if let Some((suffix_left, _)) = &edge {
        assert!(!suffix_left.contains(&Cell::Blank), "the suffix has what of the keyword stands before it: {printed}");
    }
    let capped = inner.is_none() || edge.is_none();
    assert_eq!(parts.len(), 3 + usize::from(capped), "{printed}");
    if capped {
        assert_eq!(parts[3][0], format!("at the cap keyword {shortest} stands whole behind the suffix:"));
        let (_, word_left) = drawn(&parts[3][1..], "  ", v, m, shortest, word);
        assert_eq!((parts[3].len(), word_left), (3, vec![Cell::Blank; v.len()]));
    }
}

/// Every row of random sets: the numbers are the library's, and what is drawn is so.
#[test]
fn all_rows() {
    let mut tally = [Ends::default(), Ends::default()];
    for seed in 0..600 {
        let set = set_of(seed);
        let (keywords, table) = (keywords(&set), bezowik::make(&set).expect("the set passes"));
        for row in 0..table.rows.len() / ROW {
            check_row(&keywords, &table, row, &mut tally);
        }
    }
    for Ends { caps, stops, texts } in tally {
        println!("{caps} at the cap, {stops} by a keyword, {texts} of which have a text");
        assert!(caps > 3000 && texts > 3000 && stops - texts > 3000, "{caps} {stops} {texts}");
    }
}

/// A line of a byte's table, which the library's number and the set alone determine.
fn check_far(line: &str, head: &str, keywords: &[Keyword], byte: u8, depth: usize, far: u8, tally: &mut Ends) {
    let at = |name: &str| head.find(name).expect("a column");
    let cell = |from: usize, to: usize| line.get(from..to.min(line.len())).unwrap_or_default().trim();
    let (word_at, text_at, after_at) = (at("keyword"), at("text"), at("bytes after it"));
    let found = [cell(word_at, text_at), cell(text_at, after_at), cell(after_at, line.len())];
    let [depth_cell, far_cell, number] = [cell(0, 5), cell(5, 10), cell(10, word_at)];
    assert_eq!((depth_cell, far_cell), (&*depth.to_string(), &*far.to_string()), "{line}");
    let m = keywords.iter().map(|k| k.word.len()).min().expect("a keyword");
    let n = usize::from(far);
    assert!((1..n).all(|n| holds(keywords, &[byte], depth + n).is_none()), "{line}");
    let Some(keyword) = (1..m).contains(&n).then(|| holds(keywords, &[byte], depth + n).expect("a keyword")) else {
        assert_eq!((n, number, found), (m, "", ["", "", "the cap, m"]), "{line}");
        tally.caps += 1;
        return;
    };
    let word = &keywords[keyword].word;
    let (hexes, place) = (found[0].split(' ').collect::<Vec<_>>(), word.len() - 1 - (depth + n));
    assert_eq!(hexes[place], format!("[{byte:02x}]"), "{line}");
    assert_eq!(found[0].replacen('[', "", 1).replacen(']', "", 1), hex(word), "{line}");
    let bracketed =
        text(word).map(|text| [&text[..place], "[", &text[place..=place], "]", &text[place + 1..]].concat());
    assert_eq!(found[1..], [bracketed.unwrap_or_default(), format!("{depth} + {n}")], "{line}");
    assert_eq!(number, keyword.to_string(), "{line}");
    tally.stops += 1;
    tally.texts += usize::from(text(word).is_some());
}

/// Every byte and every depth of random sets: the numbers are the library's, and the keyword has the byte there.
#[test]
fn all_bytes() {
    let mut tally = Ends::default();
    for seed in 1000..1200 {
        let set = set_of(seed);
        let (keywords, table) = (keywords(&set), bezowik::make(&set).expect("the set passes"));
        for byte in 0..=255 {
            let printed = of_byte(&keywords, &table, byte).ok().expect("the tool finds the library's numbers");
            assert!(printed.ends_with('\n') && printed.lines().all(|line| line.trim_end() == line), "{printed}");
            let lines: Vec<&str> = printed.lines().collect();
            assert_eq!((lines[0], lines.len()), (format!("byte {}", byte_shown(byte)).as_str(), 21), "{printed}");
            for (depth, line) in lines[5..].iter().enumerate() {
                let far = table.bytes[16 * usize::from(byte) + depth];
                check_far(line, lines[4], &keywords, byte, depth, far, &mut tally);
            }
        }
    }
    let Ends { caps, stops, texts } = tally;
    println!("{caps} at the cap, {stops} by a keyword, {texts} of which have a text");
    assert!(caps > 3000 && texts > 1000 && stops - texts > 1000, "{caps} {stops} {texts}");
}

/// The command prints what the functions behind it give.
#[test]
fn the_command() {
    let folder = Folder::new("the_command");
    for seed in (0..400).step_by(37) {
        let set = set_of(seed);
        let (keywords, table) = (keywords(&set), bezowik::make(&set).expect("the set passes"));
        folder.write("s.bin", &set);
        for row in (0..table.rows.len() / ROW).step_by(11) {
            let record = &table.rows[ROW * row..ROW * (row + 1)];
            let suffix = &record[1..1 + usize::from(record[0])];
            let expected = of_row(&keywords, &table, row).ok().expect("the row");
            assert_eq!(folder.done_with(&["explain", "s.bin", &hex(suffix)]), expected);
            if let Some(text) = text(suffix) {
                assert_eq!(folder.done_with(&["explain", "s.bin", &format!("\"{text}\"")]), expected);
            }
        }
        for byte in [0, 1, 2, b'A', b'C', 255] {
            let expected = of_byte(&keywords, &table, byte).ok().expect("the byte");
            assert_eq!(folder.done(&format!("explain s.bin --byte {byte:02x}")), expected);
        }
    }
}

/// Where the library's number were another than the one that is found, nothing would be told but that.
#[test]
fn another_number() {
    let told = |printed: Result<String, Failure>| match printed {
        Err(Failure::Refused(told)) => told,
        _ => panic!("it was explained"),
    };
    let keywords = keywords(&bench_set());
    for (place, number) in [(16, 2), (17, 1)] {
        let mut table = bench_table();
        table.rows[place] = number;
        let expected = format!("the keywords give {} where the library gives {number}", 3 - number);
        assert_eq!(told(of_row(&keywords, &table, 0)), format!("{expected}, which is a fault of the tool"));
        assert!(of_row(&keywords, &table, 1).is_ok());
    }
    let mut table = bench_table();
    table.bytes[16 * usize::from(b'L') + 15] = 1;
    let expected = "the keywords give 2 where the library gives 1, which is a fault of the tool";
    assert_eq!(told(of_byte(&keywords, &table, b'L')), expected);
    assert!(of_byte(&keywords, &table, b'M').is_ok());
}

// ---- what is refused ----

/// Arguments that write no suffix and no byte, and a suffix that is no row. The set is not read for the former.
#[test]
fn refusals() {
    let folder = Folder::bench("explain_refusals");
    folder.write("ad.bin", &[record(b"XAD", 1), record(b"it's AD", 1)].concat());
    folder.write("bad.bin", &[record(b"LM", 1), record(b"LM", 2)].concat());
    let in_quotes = "text is written in quotes that the shell leaves in place";
    let no_byte = "that is no byte; write two hex digits, such as 4c, or one character in quotes that the shell \
leaves in place: '\"L\"'";
    let no_row = "is no row: no keyword ends with it";
    let cases: [(i32, &[&str], String); 22] = [
        (1, &["w.bin", "4c 4c"], format!("w.bin: suffix 4c 4c (LL) {no_row}\n")),
        (1, &["w.bin", "\"LL\""], format!("w.bin: suffix 4c 4c (LL) {no_row}\n")),
        (1, &["w.bin", "00"], format!("w.bin: suffix 00 {no_row}\n")),
        (1, &["ad.bin", "AD"], format!("ad.bin: suffix ad {no_row}; as text it is one: '\"AD\"'\n")),
        (1, &["ad.bin", "\"DA\""], format!("ad.bin: suffix 44 41 (DA) {no_row}\n")),
        (1, &["bad.bin", "4d"], "bad.bin: refusal 6 place 1: record 1 has the same bytes".to_string()),
        (1, &["bad.bin", "--byte", "4d"], "bad.bin: refusal 6 place 1: record 1 has the same bytes".to_string()),
        (1, &["t.bin", ""], "t.bin: refusal 2 place 0: the set has 7 bytes".to_string()),
        (2, &["none.bin", "4d"], "none.bin: cannot be read: ".to_string()),
        (2, &["none.bin", "LM"], format!("LM is not pairs of hex digits; {in_quotes}: '\"LM\"'\n")),
        (2, &["w.bin", "4c4"], format!("4c4 is not pairs of hex digits; {in_quotes}: '\"4c4\"'\n")),
        (2, &["w.bin", "it's"], "'it'\\''s' is not pairs of hex digits; ".to_string()),
        (2, &["w.bin", "\"LM"], format!("'\"LM' is not pairs of hex digits; {in_quotes}: '\"LM\"'\n")),
        (2, &["w.bin", "\""], format!("'\"' is not pairs of hex digits; {in_quotes}: '\"\"'\n")),
        (2, &["w.bin", "\u{1b}[3"], "'\\x1b[3' is not pairs of hex digits\n".to_string()),
        (
            2,
            &["w.bin", "\"Ä\u{1b}\""],
            "'\"Ä\\x1b\"' holds Ä, which is not printable ASCII: write it in hex\n".to_string(),
        ),
        (2, &["w.bin", "\"L\u{1b}\""], "'\"L\\x1b\"' holds \\x1b, which is not printable ASCII: ".to_string()),
        (2, &["none.bin", "--byte", "4c4d"], format!("--byte 4c4d: {no_byte}\n")),
        (2, &["w.bin", "--byte", ""], format!("--byte '': {no_byte}\n")),
        (2, &["w.bin", "--byte", "L"], format!("--byte L: {no_byte}\n")),
        (2, &["w.bin", "--byte", "\"LM\""], format!("--byte '\"LM\"': {no_byte}\n")),
        (2, &["w.bin", "--byte=\"\u{7}\""], format!("--byte '\"\\x07\"': {no_byte}\n")),
    ];
    for (status, arguments, expected) in cases {
        let (ended, out, told) = folder.run_with(&[&["explain"], arguments].concat());
        assert_eq!((ended, out.as_str()), (status, ""), "{arguments:?}: {told}");
        assert!(told.starts_with(&expected), "{arguments:?}: {told}");
        assert!(!told.chars().any(|c| c.is_control() && c != '\n'), "{told:?}");
    }
    assert!(folder.done_with(&["explain", "ad.bin", "\"AD\""]).starts_with("row 2: suffix 41 44 (AD)\n"));
    assert!(folder
        .done_with(&["explain", "ad.bin", "\"'s AD\""])
        .starts_with("row 6: suffix 27 73 20 41 44 ('s AD)\n"));
}

/// A set from standard input, and what is said of one.
#[test]
fn standard_input() {
    let folder = Folder::bench("explain_standard_input");
    let expected = folder.done("explain w.bin 4c41");
    assert_eq!(folder.fed("explain - 4c41", &bench_set()), (Some(0), expected.into_bytes(), String::new()));
    let told = "standard input: suffix 4c 4c (LL) is no row: no keyword ends with it\n";
    assert_eq!(folder.fed("explain - 4c4c", &bench_set()), (Some(1), vec![], told.to_string()));
    let (status, out, told) = folder.fed("explain - --byte 4c", &bench_set()[1..]);
    assert_eq!((status, out), (Some(1), vec![]));
    assert!(told.starts_with("standard input: refusal 2 place 0: "), "{told}");
}

/// What makes a table one that is refused.
type Change = fn(&mut Table);

/// The exit status and the output of a command of the tool that a shell runs in the folder.
fn run_by_shell(folder: &Folder, command: &str) -> (Option<i32>, String) {
    let command = command.replacen("bezowik", concat!("'", env!("CARGO_BIN_EXE_bezowik"), "'"), 1);
    let output = Command::new("sh").args(["-c", &command]).current_dir(&folder.0).output().expect("the shell runs");
    (output.status.code(), String::from_utf8(output.stdout).expect("the tool writes text"))
}

/// What `check` prints of a table that it refuses ends with a command that a shell can run, and that tells of the first
/// fault's row or byte.
#[test]
fn what_check_names() {
    let folder = Folder::bench("what_check_names");
    folder.write("a b'c.bin", &bench_set());
    let cases: [(Change, i64, &str, &str, &str); 8] = [
        (|t| t.rows.truncate(143), 10, "row 0", "''", "row 0: the empty suffix"),
        (|t| t.rows[0] = 1, 11, "row 0", "''", "row 0: the empty suffix"),
        (|t| t.rows[3 * ROW + 2] = 0, 11, "row 3", "'41 4c 4d'", "row 3: suffix 41 4c 4d (ALM)"),
        (|t| t.rows[ROW + 16] = 0, 12, "row 1", "4d", "row 1: suffix 4d (M)"),
        (|t| t.rows[7 * ROW + 17] = 3, 12, "row 7", "'4c 4d 4c 41'", "row 7: suffix 4c 4d 4c 41 (LMLA)"),
        (|t| t.bytes.truncate(BYTES - 1), 13, "byte 00", "--byte 00", "byte 00"),
        (|t| t.bytes[16 * 0x4c + 2] = 2, 14, "byte 4c (L)", "--byte 4c", "byte 4c (L)"),
        (|t| t.bytes[16 * 0x0a + 15] = 3, 14, "byte 0a", "--byte 0a", "byte 0a"),
    ];
    for (change, refusal, what, written, first) in cases {
        let mut table = bench_table();
        change(&mut table);
        table.bytes[BYTES - 2] = 0;
        folder.write_table(&table);
        for (name, in_shell) in [("w.bin", "w.bin"), ("a b'c.bin", "'a b'\\''c.bin'")] {
            let (status, out, _) = folder.run_with(&["check", name, "rows.bin", "bytes.bin"]);
            let command = format!("bezowik explain {in_shell} {written}");
            let last = format!("this tells how the largest numbers of {what} are found: {command}");
            assert_eq!((status, out.lines().last()), (1, Some(last.as_str())));
            let (_, json, _) = folder.run_with(&["check", name, "rows.bin", "bytes.bin", "--json"]);
            let json: serde_json::Value = serde_json::from_str(&json).expect("json");
            assert_eq!((&json["refusal"], &json["explain"]), (&refusal.into(), &command.as_str().into()));
            let (status, printed) = run_by_shell(&folder, &command);
            assert_eq!((status, printed.lines().next()), (Some(0), Some(first)), "{command}");
        }
    }
    folder.write_table(&bench_table());
    let (_, json, _) = folder.run("check w.bin rows.bin bytes.bin --json");
    let json: serde_json::Value = serde_json::from_str(&json).expect("json");
    assert_eq!(json.get("explain"), Some(&serde_json::Value::Null));
}
