//! Every rule by which a csv becomes a keyword set, with the sentence for each fault.

use bezowik::sets::record;
use bezowik_tool::cells::{rows, told, Fault};
use bezowik_tool::jobs::set::listed;
use bezowik_tool::sets::{keywords, set_file};

/// What a set must hold: words and energies, in order.
type Words<'a> = &'a [(&'a [u8], u32)];

/// The faults of a csv as the tool tells them of a file `f`, a line each.
fn faults(csv: &[u8], text: bool) -> String {
    let found = keywords(csv, text).expect_err(&format!("must be refused: {}", csv.escape_ascii()));
    told("f", &found)
}

/// That a csv gives a set, and how many notes beside it.
fn check_taken(csv: &[u8], text: bool, words: Words, notes: usize) {
    let name = csv.escape_ascii();
    let sheet = keywords(csv, text).unwrap_or_else(|faults| panic!("{name}: {}", told("f", &faults)));
    let found: Vec<(&[u8], u32)> = sheet.keywords.iter().map(|keyword| (&keyword.word[..], keyword.energy)).collect();
    assert_eq!((&found[..], sheet.notes.len()), (words, notes), "{name}");
    let records: Vec<u8> = words.iter().flat_map(|(word, energy)| record(word, *energy)).collect();
    assert_eq!(set_file(&sheet.keywords), records, "{name}");
}

/// Text in UTF-16 with its mark.
fn utf16(text: &str, bytes: fn(u16) -> [u8; 2]) -> Vec<u8> {
    text.encode_utf16().fold(bytes(0xfeff).to_vec(), |all, unit| [&all[..], &bytes(unit)].concat())
}

/// Sentences, or parts of them, that more than one fault has.
const NAME_THEM: &str = "name the columns in a first row, `hex` or `text`, and `energy`";
const WHOLE: &str = "energies are whole picojoules, without decimals or separators";
const NO_COMMENTS: &str = "a csv has no comments: delete the row that begins with #, or put it into a column `note`";
const NO_KEYWORD: &str = "f: no keyword in it, and a set has at least one";
const ZEROS: &str = "hex of digits alone, and a spreadsheet drops the zeros in front of a number: \
    if bytes are missing, write spaces between them (41 42) or 0x in front (0x41)";

const W: Words = &[(b"LM", 40), (b"ALM", 55), (b"LMLA", 90)];

#[test]
fn taken_with_a_header() {
    let forms: [&str; 12] = [
        "text,energy\nLM,40\nALM,55\nLMLA,90\n",
        "energy,text\n40,LM\n55,ALM\n90,LMLA",
        "\"text\",\"energy\"\n\"LM\",\"40\"\n\"ALM\",55\nLMLA,\"90\"\n",
        " Text ,ENERGY \nLM, 40 \nALM,55 \nLMLA,0090\n",
        "name;text;note;energy\na;LM;x;40\n;ALM;\"y;\ny\";55\nc;LMLA;;90\n",
        "text\tenergy\tnote\nLM\t40\nALM\t55\t\nLMLA\t90\tno, 5\n",
        "hex,energy\n4c 4d,40\n41 4c4d,55\n0x4C4D 0X4c 41,90\n",
        "hex;energy\n\"4c4d\";40\n 414C4D ;55\n4c  4d 4c 41;90\n",
        "note,Hex,Energy\n1,4c4d,40\n2,414c4d,55\n3,4c4d4c41,90\n",
        "text,energy,,\nLM,40,,\nALM,55,,\nLMLA,90,,,,\n",
        "\n , \n\t\ntext,energy\n\nLM,40\n,\n\" \",\"\n\"\nALM,55\n,,,,\nLMLA,90\n\n\n",
        "text,,energy\nLM,,40\nALM,passed over,55\nLMLA,,90\n",
    ];
    for form in forms {
        check_taken(form.as_bytes(), false, W, 0);
        check_taken(form.replace('\n', "\r\n").as_bytes(), false, W, 0);
        check_taken(form.replace('\n', "\r").as_bytes(), false, W, 0);
        check_taken(format!("\u{feff}{form}").as_bytes(), false, W, 0);
        check_taken(&utf16(form, u16::to_le_bytes), false, W, 0);
        check_taken(&utf16(form, u16::to_be_bytes), false, W, 0);
        check_taken(&utf16(&form.replace('\n', "\r\n"), u16::to_le_bytes), false, W, 0);
    }
}

#[test]
fn taken_without_a_header() {
    check_taken(b"4c 4d,40\n414c4d,55\n0x4C4D4C41 , 90", false, W, 0);
    check_taken(b"4c 4d;40\n414c4d;55;\n4c4d4c41;90;;\n", false, W, 0);
    check_taken(b"\"4c 4d\"\t40\n\"414c4d\"\t\"55\"\n4c4d4c41\t90\n", false, W, 0);
    check_taken(b"LM,40\nALM,55\nLMLA,90\n", true, W, 0);
    check_taken(b"\"LM\";40\n\"ALM\";\"55\"\n\"LMLA\";90\n", true, W, 0);
    check_taken(b"text,energy\nLM,40\nALM,55\nLMLA,90\n", true, W, 0);
    check_taken(b"\";\",1\n\",\",2\n\"a,\"\"b\",3\n", true, &[(b";", 1), (b",", 2), (b"a,\"b", 3)], 0);
    check_taken(b"AD,1\nBEAD,2\n4c4d,3\n41,4\n", true, &[(b"AD", 1), (b"BEAD", 2), (b"4c4d", 3), (b"41", 4)], 0);
    check_taken(b"AD,1\nBE AD,2\n", true, &[(b"AD", 1), (b"BE AD", 2)], 0);
    check_taken(b"BE AD,2\nB0,1\n0xff,0\n", false, &[(&[0xbe, 0xad], 2), (&[0xb0], 1), (&[0xff], 0)], 0);
    let odd: Words = &[(b"a b", 1), (b"-", 2), (b"\"", 3), (b"#x", 4), (b"=A1", 4294967295)];
    check_taken(b"a b,1\n-,2\n\"\"\"\",3\n#x,4\n=A1,4294967295\n", true, odd, 1);
}

/// A column that a header names decides what letters are, and other columns may hold anything.
#[test]
fn columns_decide() {
    check_taken(b"hex,energy\nAD,1\nff,2\nBEAD,3\n", false, &[(&[0xad], 1), (&[0xff], 2), (&[0xbe, 0xad], 3)], 0);
    check_taken(b"text,energy\nAD,1\nff,2\n4c4d,3\n", false, &[(b"AD", 1), (b"ff", 2), (b"4c4d", 3)], 0);
    check_taken(b"text,energy,note\nLM,40,\xfcber\nA,1,\"\"\"q\"\"\"\n", false, &[(b"LM", 40), (b"A", 1)], 0);
    check_taken(b"text,energy,count\nLM,40,5\n", false, &[(b"LM", 40)], 1);
    check_taken("text;energy;Größe\nLM;40;3,5\n".as_bytes(), false, &[(b"LM", 40)], 0);
    let longest: Words = &[(&[0, 1, 2, 3, 4, 5, 6, 7, 8, 9, 10, 11, 12, 13, 14], 0)];
    check_taken(b"hex,energy\n000102030405060708090a0b0c0d0e,0\n", false, longest, 0);
}

#[test]
fn digits_alone_give_a_note() {
    let notes = |csv: &str, text: bool| keywords(csv.as_bytes(), text).expect("it is right").notes;
    let note = |lines: &str| vec![Fault { line: None, reason: format!("{lines} {ZEROS}") }];
    assert_eq!(notes("hex,energy\n4142,1\n41 43,2\n0x4144,3\n414c,4\n", false), note("line 2 has"));
    assert_eq!(notes("10,1\n4142,1\n4c,1\n", false), note("lines 1, 2 have"));
    let many: String = (10..40).map(|i| format!("{i},1\n")).collect();
    assert_eq!(notes(&many, false), note("lines 1, 2, 3, 4, 5, 6, 7, 8, and 22 more have"));
    assert_eq!(notes(&many, true), []);
}

/// A row that was meant as a comment and reads as a keyword is taken, and noted.
#[test]
fn hashes_give_a_note() {
    let note = "text that begins with #, and it is a keyword: a csv has no comments, delete the row if it was one";
    for (csv, text) in [("text,energy\nLM,40\n#ALM,55\n#,1\n", false), ("LM,40\n\n#ALM,55\n", true)] {
        let sheet = keywords(csv.as_bytes(), text).expect("it is right");
        let lines = if text { "line 3 has" } else { "lines 3, 4 have" };
        assert_eq!(sheet.notes, [Fault { line: None, reason: format!("{lines} {note}") }]);
    }
    assert_eq!(faults(b"# W\n4c,1\n4d,2\n", false), format!("f line 1: {NO_COMMENTS}"));
}

/// A decimal comma in a file without quotes looks like a number in the next column.
#[test]
fn numbers_behind_energies_give_a_note() {
    let note = "a number right behind the energy, in a column that is passed over: energies are whole picojoules, so \
look whether it is what stood behind a decimal comma";
    let sheet = keywords(b"text,energy,note\nLM,40,5\nALM,55,fast\nA,1,\n", false).expect("it is right");
    assert_eq!(sheet.notes, [Fault { line: None, reason: format!("line 2 has {note}") }]);
    assert_eq!(keywords(b"text;energy;note\nLM;40;5\n", false).expect("it is right").notes, []);
}

/// What was taken, with bytes and text side by side.
#[test]
fn listing() {
    let sheet =
        keywords(b"hex,energy\n4c 4d,40\n\nad,4294967295\n2d,0\n20 22 5c 20,7\n4142,1\n", false).expect("it is right");
    let expected = r#"no  line  bytes        text   energy pJ
 0     2  4c 4d        LM            40
 1     4  ad                 4294967295
 2     5  2d           -              0
 3     6  20 22 5c 20   "\            7
 4     7  41 42        AB             1
"#;
    assert_eq!(listed(&sheet), format!("{expected}\nnote: line 7 has {ZEROS}\n"));
    let sheet = keywords(b"text,energy\nLM,40\n", false).expect("it is right");
    assert_eq!(listed(&sheet), "no  line  bytes  text  energy pJ\n 0     2  4c 4d  LM           40\n");
}

/// Files that are no csv, or not a whole one.
#[test]
fn encodings() {
    let sheet = "f: this is a spreadsheet file and no csv: export the sheet as csv, in UTF-8";
    let zeros = "f: the file has zero bytes: it is UTF-16 without a mark, or no csv; export the sheet as csv, in UTF-8";
    let short = "f: the file is cut short, for it is UTF-16 and has an odd number of bytes: export the sheet again";
    let cases: [(&[u8], &str); 9] = [
        (b"PK\x03\x04\x14\0\0\x08", sheet),
        (b"\xd0\xcf\x11\xe0\xa1\xb1\x1a\xe1\0", sheet),
        (b"t\0e\0x\0t\0,\0e\0n\0", zeros),
        (b"text,energy\nLM,40\0\n", zeros),
        (b"\xff\xfe\0\0t\0\0\0", zeros),
        (b"\xff\xfet\0e\0x", short),
        (b"\xfe\xff\0t\0e\0", short),
        (b"\xff\xfe", NO_KEYWORD),
        (b"\xef\xbb\xbf", NO_KEYWORD),
    ];
    for (csv, sentence) in cases {
        assert_eq!(faults(csv, false), sentence, "{}", csv.escape_ascii());
    }
    let hex = "which is not printable ASCII: write the keyword in hex";
    let half = [&utf16("text,energy\nL", u16::to_le_bytes)[..], b"\x00\xd8,\x004\x00"].concat();
    assert_eq!(faults(&half, false), format!("f line 2: the text `L\u{fffd}` holds `\u{fffd}`, {hex}"));
    let twice = b"\xef\xbb\xbf\xef\xbb\xbfLM,40\n";
    assert_eq!(faults(twice, true), format!("f line 1: the text `\\u{{feff}}LM` holds `\\u{{feff}}`, {hex}"));
}

/// Quotes are those of RFC 4180, and a fault names the line where the quote is.
#[test]
fn quotes() {
    let bare = |line: usize, found: &str| {
        let help = "put the whole cell in quotes and write each quote in it twice";
        format!("f line {line}: a quote within a cell that does not begin with one, `{found}`: {help}")
    };
    let behind = |place: &str, found: &str| {
        let help = "a quote within a quoted cell is written twice";
        format!("f line 2: the quote that opens here is closed{place} and `{found}` stands behind it: {help}")
    };
    let open = |line: usize, found: &str| {
        format!("f line {line}: the quote that opens here, `{found}`, is never closed: close it")
    };
    let energy = "f line 3: the energy `x` is not a whole number of picojoules: write digits alone";
    let many = [bare(2, "L\"M,40"), energy.to_string(), open(5, "\"C,2\\n")].join("\n");
    let cases: [(&str, String); 9] = [
        ("text,energy\nL\"M,40\n", bare(2, "L\"M,40")),
        ("text,energy\nLM, \"40\"\n", bare(2, " \"40\"")),
        ("te\"xt,energy\nB,x\n", bare(1, "te\"xt,energy")),
        ("text,energy\n\"LM\" ,40\n", behind("", " ,40")),
        ("text,energy\r\n\"L\"M\",40\r\n", behind("", "M\",40")),
        ("text,energy\r\"LM,40\r\"ALM\",55\rA,1\r", behind(" in line 3", "ALM\",55")),
        ("text,energy\nA,1\n\"LM,40\nALM,55\n", open(3, "\"LM,40\\nALM,55\\n")),
        ("text,energy\nA,\"1", open(2, "\"1")),
        ("text,energy\nL\"M,40\nB,x\nC,1\n\"C,2\n", many),
    ];
    for (csv, sentence) in cases {
        assert_eq!(faults(csv.as_bytes(), false), sentence, "{csv}");
    }
}

#[test]
fn headers() {
    let once = format!("{NAME_THEM}, each once");
    let header =
        |line: u8, found: &str, wrong: &str| format!("f line {line}: the header `{found}` has {wrong}: {once}");
    let neither = format!("is neither a header nor a keyword with an energy: {NAME_THEM}");
    let none = |found: &str| format!("f line 1: the first row `{found}` {neither}");
    let more = format!("{}\nf line 4: the energy `3.5` has a decimal comma or point: {WHOLE}", none("keyword,pJ"));
    let cases: [(&str, String); 12] = [
        ("hex\n4c4d\n", header(1, "hex", "no `energy`")),
        ("energy\n40\n", header(1, "energy", "no `hex` or `text`")),
        ("\n\nhex,pJ\n4c4d,x\n", header(3, "hex,pJ", "no `energy`")),
        ("Keyword;Energy\nLM;x\n", header(1, "Keyword;Energy", "no `hex` or `text`")),
        ("hex\ttext\tenergy\n", header(1, "hex\\ttext\\tenergy", "both `hex` and `text`")),
        ("hex,HEX,energy\n", header(1, "hex,HEX,energy", "`hex` more than once")),
        ("text,energy,Text\n", header(1, "text,energy,Text", "`text` more than once")),
        ("energy,energy,x\n", header(1, "energy,energy,x", "no `hex` or `text` and `energy` more than once")),
        ("keyword,picojoules\n4c4d,x\n", none("keyword,picojoules")),
        ("Keywords of 2026\nhex;energy\n4c;40\n", none("Keywords of 2026")),
        ("keyword,pJ 1\nLM,1\nALM,2\n", none("keyword,pJ 1")),
        ("keyword,pJ\n4c,1\n4d,2\n4e,3.5\n", more),
    ];
    for (csv, sentence) in cases {
        assert_eq!(faults(csv.as_bytes(), false), sentence, "{csv}");
    }
    let both = "--text takes the keywords as text, and the first row names a column `hex`";
    let help = "leave --text out, or name the column `text`";
    assert_eq!(faults(b"hex,energy\n4c4d,40\n", true), format!("f line 1: {both}: {help}"));
    for empty in ["", "\n\r\n", ",,\n \n", "text,energy\n", "hex,energy\n,,\n\n"] {
        assert_eq!(faults(empty.as_bytes(), false), NO_KEYWORD, "{empty:?}");
    }
}

/// Cells that are too many, too few, or in the wrong place.
#[test]
fn cells_of_a_row() {
    let two = format!("a row without a header is a keyword and an energy: {NAME_THEM}");
    let beyond = |cell: usize, found: &str| format!("f line 1: cell {cell} holds `{found}`, and {two}");
    let looks = format!("looks like an energy with a decimal comma: {WHOLE}");
    let comma = |line: usize, found: &str| format!("f line {line}: `{found}` {looks}");
    let few = |line: usize, has: &str, separator: &str, told: usize| {
        let separates = format!("what separates cells in this file is {separator}, told from line {told}");
        format!("f line {line}: the row has {has}: {separates}")
    };
    let header = "cell 4 holds `x`, and the header ends with column 2: name this one too, or empty it";
    let note = "the row has `here`, but no keyword and no energy: fill them in, or empty the whole row";
    let empty = "the energy is empty: write picojoules, 0 to 4294967295";
    let cases: [(&str, String); 16] = [
        ("4c4d,40,note\n", beyond(3, "note")),
        ("4c4d,40,,1\n", beyond(4, "1")),
        ("4c4d;40;5\n", beyond(3, "5")),
        ("4c4d,40,5\n", comma(1, "40,5")),
        ("hex,energy\n4c4d,1,234\n", comma(2, "1,234")),
        ("energy,hex\n1,234,4c4d\n", comma(2, "1,234")),
        ("hex,energy,note\n4c4d,40,5,\n", comma(2, "40,5")),
        ("hex,energy\n4c4d;40\n", few(2, "1 cell and needs 2", "a comma", 1)),
        ("\nhex;note;energy\n4c4d;40\n", few(3, "2 cells and needs 3", "a semicolon", 2)),
        ("4c\t1\n4d\t2\n4e,3\n", few(3, "1 cell and needs 2", "a tab", 1)),
        ("hex,energy,,\n4c4d,40,,x\n", format!("f line 2: {header}")),
        ("text,energy,note\n,,here\n", format!("f line 2: {note}")),
        ("text,energy\n,5\nLM,\n", format!("f line 2: the keyword is empty: write 1 to 15 bytes\nf line 3: {empty}")),
        ("hex,energy\n ,5\n", "f line 2: the keyword is empty: write 1 to 15 bytes".to_string()),
        ("4c4d,\n", format!("f line 1: {empty}")),
        ("text,energy\nLM,40\n# more\n#,#\n", format!("f line 3: {NO_COMMENTS}\nf line 4: {NO_COMMENTS}")),
    ];
    for (csv, sentence) in cases {
        assert_eq!(faults(csv.as_bytes(), false), sentence, "{csv}");
    }
}

#[test]
fn hex_faults() {
    let retype = "if a spreadsheet took it for a number, make its cells text and type it again";
    let text = "if it is text, give --text, or a first row with `text` and `energy`";
    let either = format!("{NAME_THEM} (or give --text)");
    let quote = "begins and ends with a quote: quotes belong to the csv, write";
    let long = "bytes, and a keyword has 1 to 15";
    let zeros = |n: usize| "00".repeat(n);
    let cases: [(&str, String); 19] = [
        ("AD,1", format!("`AD` can be text or hex: {either}")),
        (" ff ,1", format!("` ff ` can be text or hex: {either}")),
        ("BEAD,1", format!("`BEAD` can be text or hex: {either}")),
        ("LM,1", format!("`LM` is not pairs of hex digits; {text}")),
        ("4c lm,1", format!("`4c lm` is not pairs of hex digits; {text}")),
        ("ADD,1", format!("`ADD` has an odd number of hex digits, and a byte is two of them; {text}")),
        ("4 c,1", format!("`4 c` has an odd number of hex digits, and a byte is two of them; {text}")),
        ("0x,1", format!("`0x` is not pairs of hex digits; {text}")),
        ("4c:4d,1", format!("`4c:4d` is not pairs of hex digits; {text}")),
        ("102,1", format!("`102` has an odd number of hex digits, and a byte is two of them; {retype}")),
        ("4E+10,1", format!("`4E+10` is not pairs of hex digits; {retype}")),
        ("4c\u{a0}4d,1", "`4c\\u{a0}4d` is not pairs of hex digits".to_string()),
        ("\"4c\n4d\",1", "`4c\\n4d` is not pairs of hex digits".to_string()),
        ("\u{1b}[2J,1", "`\\u{1b}[2J` is not pairs of hex digits".to_string()),
        ("\"\"\"LM\"\"\",1", format!("`\"LM\"` {quote} `LM` without them")),
        ("'4c4d',1", format!("`'4c4d'` {quote} `4c4d` without them")),
        (&format!("{},1", zeros(16)), format!("the keyword `{}` has 16 {long}", zeros(16))),
        (&format!("4c {},1", zeros(400)), format!("the keyword `4c {}0...` has 401 {long}", zeros(18))),
        (
            "4c,x\u{202e}1",
            "the energy `x\\u{202e}1` is not a whole number of picojoules: write digits alone".to_string(),
        ),
    ];
    for (row, sentence) in cases {
        let csv = format!("00,0\n{row}\n01,1\n");
        assert_eq!(faults(csv.as_bytes(), false), format!("f line 2: {sentence}"), "{csv}");
    }
    let column = "if it is text, name the column `text`";
    assert_eq!(faults(b"hex,energy\nLM,1\n", false), format!("f line 2: `LM` is not pairs of hex digits; {column}"));
    assert_eq!(faults(b"hex,energy\n\xff4c,1\n", false), "f line 2: `\\xff4c` is not pairs of hex digits");
}

#[test]
fn text_faults() {
    let hex = "which is not printable ASCII: write the keyword in hex";
    let space = "begins or ends with a space: leave it out, or write the keyword in hex if it is meant";
    let quote = "begins and ends with a quote: quotes belong to the csv, write";
    let cases: [(&[u8], String); 15] = [
        (b"\"\"\"LM\"\"\",1", format!("`\"LM\"` {quote} `LM` without them")),
        (b"'LM',1", format!("`'LM'` {quote} `LM` without them")),
        ("“LM”,1".as_bytes(), format!("`“LM”` {quote} `LM` without them")),
        ("„LM“,1".as_bytes(), format!("`„LM“` {quote} `LM` without them")),
        (b"`LM`,1", format!("``LM`` {quote} `LM` without them")),
        (b"\" \"\"LM\"\" \",1", format!("` \"LM\" ` {quote} `LM` without them")),
        (b"\"\"\"\"\"\",1", format!("`\"\"` {quote} `` without them")),
        ("Größe,1".as_bytes(), format!("the text `Größe` holds `ö`, {hex}")),
        (b"L\xfcM,1", format!("the text `L\\xfcM` holds `\\xfc`, {hex}")),
        (b"\"L\rM\",1", format!("the text `L\\nM` holds `\\n`, {hex}")),
        (b"L\x7f,1", format!("the text `L\\u{{7f}}` holds `\\u{{7f}}`, {hex}")),
        (b" LM,1", format!("the text ` LM` {space}")),
        (b"LM ,1", format!("the text `LM ` {space}")),
        (b"\" \",1", format!("the text ` ` {space}")),
        (b"abcdefghijklmnop,1", "the keyword `abcdefghijklmnop` has 16 bytes, and a keyword has 1 to 15".to_string()),
    ];
    for (row, sentence) in cases {
        let headed = [b"text,energy\n", row].concat();
        assert_eq!(faults(&headed, false), format!("f line 2: {sentence}"), "{}", row.escape_ascii());
        assert_eq!(faults(&[b"A,0\n", row].concat(), true), format!("f line 2: {sentence}"), "{}", row.escape_ascii());
    }
    check_taken(b"text,energy\nabcdefghijklmno,1\n", false, &[(b"abcdefghijklmno", 1)], 0);
}

#[test]
fn energies() {
    let whole = format!("has a decimal comma or point: {WHOLE}");
    let digits = "is not a whole number of picojoules: write digits alone";
    let high = "is too high: write picojoules, 0 to 4294967295";
    let cases: [(&str, String); 20] = [
        ("40,5", format!("the energy `40,5` {whole}")),
        ("40.0", format!("the energy `40.0` {whole}")),
        ("1.234", format!("the energy `1.234` {whole}")),
        ("1,234", format!("the energy `1,234` {whole}")),
        (" 1,234.5 ", format!("the energy ` 1,234.5 ` {whole}")),
        (".5", format!("the energy `.5` {whole}")),
        ("4E+01", format!("the energy `4E+01` {digits}")),
        ("+4", format!("the energy `+4` {digits}")),
        ("-4", format!("the energy `-4` {digits}")),
        ("40 pJ", format!("the energy `40 pJ` {digits}")),
        ("1 234", format!("the energy `1 234` {digits}")),
        ("0x28", format!("the energy `0x28` {digits}")),
        ("\u{a0}40", format!("the energy `\\u{{a0}}40` {digits}")),
        ("40\n", format!("the energy `40\\n` {digits}")),
        ("٤٠", format!("the energy `٤٠` {digits}")),
        ("", "the energy is empty: write picojoules, 0 to 4294967295".to_string()),
        ("4294967296", format!("the energy `4294967296` {high}")),
        (" 004294967296", format!("the energy ` 004294967296` {high}")),
        ("18446744073709551616", format!("the energy `18446744073709551616` {high}")),
        ("99999999999999999999999", format!("the energy `99999999999999999999999` {high}")),
    ];
    for (energy, sentence) in cases {
        for (first, text) in [("text,energy", false), ("A,1", true)] {
            let csv = format!("{first}\nLM,\"{energy}\"\n");
            assert_eq!(faults(csv.as_bytes(), text), format!("f line 2: {sentence}"), "{csv}");
        }
    }
    for most in [0, 255, 256, 65535, 65536, 16777216, 4294967294, 4294967295] {
        let csv = format!("text,energy\nA,0\nB,{most}\nC,\" 00{most} \"\n");
        check_taken(csv.as_bytes(), false, &[(b"A", 0), (b"B", most), (b"C", most)], 0);
    }
    // a first row with such an energy is a keyword all the same
    for energy in ["40.5", "-4", "4E+01", "40 pJ", "\"\"\"40\"\"\""] {
        assert!(faults(format!("4c4d,{energy}\n").as_bytes(), false).starts_with("f line 1: the energy `"), "{energy}");
    }
}

/// All that is wrong with a file is told at once, in the order of its lines, and a file with very much of it is cut.
#[test]
fn all_at_once() {
    let once = "a set has it once, delete one of the rows";
    let csv = b"text,energy\nLM,40\n LM,4.5\nLM,41\nALM,x\nALM,2\n\nLM,3\n";
    let expected = [
        "f line 3: the text ` LM` begins or ends with a space: leave it out, or write the keyword in hex if it is meant",
        &format!("f line 3: the energy `4.5` has a decimal comma or point: {WHOLE}"),
        &format!("f line 4: lines 2 and 4 have the same keyword, 4c 4d (LM): {once}"),
        "f line 5: the energy `x` is not a whole number of picojoules: write digits alone",
        &format!("f line 6: lines 5 and 6 have the same keyword, 41 4c 4d (ALM): {once}"),
        &format!("f line 8: lines 2 and 8 have the same keyword, 4c 4d (LM): {once}"),
    ];
    assert_eq!(faults(csv, false), expected.join("\n"));
    let same = format!("f line 3: lines 2 and 3 have the same keyword, ad be: {once}");
    assert_eq!(faults(b"hex,energy\nad BE,1\nADBE,2\n", false), same);
    let long: String = (0..30).map(|i| format!("LM{i},1\n")).collect();
    let message = faults(format!("hex,energy\n{long}").as_bytes(), false);
    assert_eq!(message.lines().count(), 21);
    assert!(message.ends_with("\nand 10 more"), "{message}");
}

#[test]
fn number_of_keywords() {
    let lines = |n: usize| (0..n).map(|i| format!("{i:02x} 00,{i}\n")).collect::<String>();
    assert_eq!(keywords(lines(64).as_bytes(), false).expect("as many as may be").keywords.len(), 64);
    assert_eq!(faults(lines(65).as_bytes(), false), "f line 65: this is keyword 65 of 65, and a set has at most 64");
    let headed = format!("hex,energy\n\n{}", lines(70));
    assert_eq!(faults(headed.as_bytes(), false), "f line 67: this is keyword 65 of 70, and a set has at most 64");
}

/// A file of junk is refused in one sentence, and blank rows are no cells.
#[test]
fn files_that_are_too_long() {
    let sentence = "f: the file has more than 250000 cells or faults, and is too long to be read as a csv";
    for junk in ["a\n", "4c,1\n", ",", "a\"\n", "x,x\t;"] {
        assert_eq!(faults(junk.repeat(300_000).as_bytes(), false), sentence, "{junk:?}");
    }
    let blank = format!("text,energy\n{}LM,40\n", ",\n".repeat(1 << 20));
    check_taken(blank.as_bytes(), false, &[(b"LM", 40)], 0);
}

/// Rows with the lines where they begin, for whoever reads another csv.
#[test]
fn rows_of_cells() {
    let found = |csv: &[u8], names: &[&str]| -> Vec<(usize, Vec<String>)> {
        let rows = rows(csv, names).unwrap_or_else(|faults| panic!("{}", told("f", &faults)));
        let text = |cell: &Vec<u8>| String::from_utf8_lossy(cell).into_owned();
        rows.iter().map(|row| (row.line, row.cells.iter().map(text).collect())).collect()
    };
    let row = |line: usize, cells: &[&str]| (line, cells.iter().map(|cell| cell.to_string()).collect::<Vec<String>>());
    let csv = b"\r\n\r\na;\"b\r\nb\";c,d\r\n;;\r\n\"\"\"\";\"\"\rx\n";
    assert_eq!(found(csv, &[]), [row(3, &["a", "b\nb", "c,d"]), row(6, &["\"", ""]), row(7, &["x"])]);
    // a name among the cells tells the separator, else the tab does before the semicolon, and that before the comma
    assert_eq!(found(b"a;b, Start ,c\td\n", &["start"]), [row(1, &["a;b", " Start ", "c\td"])]);
    assert_eq!(found(b"a;b, Start ,c\td\n", &[]), [row(1, &["a;b, Start ,c", "d"])]);
    assert_eq!(found(b"a;b, Start ,c\n", &[]), [row(1, &["a", "b, Start ,c"])]);
    assert_eq!(found(b"\"a;b\",\"c\td\"\n1;2\n", &[]), [row(1, &["a;b", "c\td"]), row(2, &["1;2"])]);
    assert_eq!(found(b"", &[]), []);
    assert_eq!(found(b"\"\"\n\" \"\n,\n", &[]), []);
    let faults = rows(b"a,b\n\"c\nd,e\"f,g\nh\"\ni,j\n", &[]).expect_err("the quotes are wrong");
    assert_eq!(faults.iter().map(|fault| fault.line).collect::<Vec<_>>(), [Some(2), Some(4)]);
}

/// A message repeats a name as it is given, and a fault of the whole file without a line.
#[test]
fn told_as_a_message() {
    let fault = |line: Option<usize>| Fault { line, reason: "why".to_string() };
    assert_eq!(told("a b.csv", &[fault(None), fault(Some(7))]), "a b.csv: why\na b.csv line 7: why");
    assert_eq!(told("f", &vec![fault(Some(1)); 20]).lines().count(), 20);
    assert_eq!(told("f", &vec![fault(Some(1)); 21]).lines().last(), Some("and 1 more"));
}
