//! `check`, `show` and `tables`: every fault of a table is told, a table goes to csv and comes back, and what is not
//! safe is not written.

#[path = "../../tests/common/mod.rs"]
mod common;
mod folder;

use bezowik::random::Random;
use bezowik::{Table, BYTES, ROW};
use bezowik_tool::faults::audit;
use bezowik_tool::files::Tables;
use common::{bench_set, random_set};
use folder::{bench_table, Folder};
use std::path::PathBuf;

/// What `check` prints of a table for W that it must refuse, and what it says of it.
fn refused(folder: &Folder, table: &Table) -> (String, String) {
    folder.write_table(table);
    let (status, out, told) = folder.run("check w.bin rows.bin bytes.bin");
    assert_eq!(status, 1, "{out}{told}");
    let scanned = folder.fails(1, "scan w.bin t.bin --backward rows.bin bytes.bin");
    assert_eq!(scanned.lines().next(), told.lines().next(), "the check and the backward scan say the same");
    (out, told)
}

const REMAKE: &str =
    "this makes the tables again, with the largest safe numbers: bezowik tables w.bin rows.bin bytes.bin";

#[test]
fn accepted() {
    let folder = Folder::bench("accepted");
    let safe = "the tables are safe for this set: 8 rows\n";
    let largest = format!("{safe}none of 4112 numbers is below the largest safe one\n");
    assert_eq!(folder.done("check w.bin rows.bin bytes.bin"), largest);
    let mut table = bench_table();
    table.bytes[7] = 1;
    folder.write_table(&table);
    let told =
        format!("{safe}1 of 4112 numbers is below the largest safe one: safe, but slower than need be\n{REMAKE}\n");
    assert_eq!(folder.done("check w.bin rows.bin bytes.bin"), told);
    table.rows[3 * ROW + 17] = 1;
    folder.write_table(&table);
    let told =
        format!("{safe}2 of 4112 numbers are below the largest safe ones: safe, but slower than need be\n{REMAKE}\n");
    assert_eq!(folder.done("check w.bin rows.bin bytes.bin"), told);
    assert_eq!(folder.done("check w.bin rows.bin bytes.bin --csv"), "refusal,place,at,suffix,what,found,largest\n");
}

#[test]
fn all_faults() {
    let folder = Folder::bench("all_faults");
    let mut table = bench_table();
    table.rows[16] = 2;
    table.rows[3 * ROW + 17] = 0;
    table.rows[5 * ROW + 1] = b'X';
    table.bytes[16 * usize::from(b'L') + 2] = 2;
    table.bytes[7] = 1;
    let (out, told) = refused(&folder, &table);
    let expected = format!(
        "file       row or byte          suffix         number  found  largest
rows.bin   row 0                (empty)         inner      2        1
rows.bin   row 3                41 4c 4d  ALM    edge      0        2
rows.bin   row 5                4c 41  LA      suffix  58 41    4c 41
bytes.bin  byte 4c (L) depth 2                    far      2        1
4 faults
1 of 4112 numbers is below the largest safe one: safe, but slower than need be
{REMAKE}
this tells how the largest numbers of row 0 are found: bezowik explain w.bin ''
"
    );
    assert_eq!(out, expected);
    assert_eq!(told, "rows.bin: refusal 12 place 0: a number of row 0, the empty suffix, is not safe\n");
    let (_, csv, _) = folder.run("check w.bin rows.bin bytes.bin --csv");
    let expected = "refusal,place,at,suffix,what,found,largest
12,0,row 0,,inner,2,1
12,3,row 3,41 4c 4d,edge,0,2
11,5,row 5,4c 41,suffix,58 41,4c 41
14,1218,byte 4c (L) depth 2,,far,2,1
";
    assert_eq!(csv, expected);
    let (status, json, _) = folder.run("check w.bin rows.bin bytes.bin --json");
    let json: serde_json::Value = serde_json::from_str(&json).expect("json");
    assert_eq!((status, &json["safe"], &json["refusal"], &json["place"]), (1, &false.into(), &12.into(), &0.into()));
    assert_eq!((&json["numbers"], &json["below"], &json["swapped"]), (&4112.into(), &1.into(), &false.into()));
    assert_eq!(json["explain"], "bezowik explain w.bin ''");
    let fault = serde_json::json!({
        "refusal": 12, "place": 3, "at": "row 3", "suffix": "41 4c 4d", "text": "ALM",
        "what": "edge", "found": 0, "largest": 2,
    });
    assert_eq!((json["faults"].as_array().map(Vec::len), &json["faults"][1]), (Some(4), &fault));
}

#[test]
fn sizes() {
    let folder = Folder::bench("sizes");
    for length in [0, 143, 145, 162] {
        let mut table = bench_table();
        table.rows.resize(length, 0);
        let (out, told) = refused(&folder, &table);
        let fault: Vec<&str> = out.lines().nth(1).unwrap_or_default().split_whitespace().collect();
        assert_eq!(fault.join(" "), format!("rows.bin row file size {length} bytes 144 bytes"));
        assert!(out.contains("bezowik tables w.bin rows.bin bytes.bin --force\n"), "{out}");
        assert!(out.ends_with("numbers of row 0 are found: bezowik explain w.bin ''\n"), "{out}");
        let expected = format!("the row file has {length} bytes, and this set's 8 rows need exactly 144");
        assert_eq!(told, format!("rows.bin: refusal 10 place 8: {expected}: make the tables again for this set\n"));
    }
    for length in [0, BYTES - 1, BYTES + 1] {
        let mut table = bench_table();
        table.bytes.resize(length, 1);
        let (out, told) = refused(&folder, &table);
        assert!(out.ends_with("numbers of byte 00 are found: bezowik explain w.bin --byte 00\n"), "{out}");
        let expected =
            format!("the byte file has {length} bytes, and it must have exactly 4096: make the tables again");
        assert_eq!(told, format!("bytes.bin: refusal 13 place 0: {expected}\n"));
    }
}

/// The field failure: a row slipped. Every row that is wrong is told, and the command that is named mends it.
#[test]
fn a_row_slipped() {
    let folder = Folder::bench("a_row_slipped");
    let mut table = bench_table();
    table.rows.copy_within(ROW..2 * ROW, 0);
    let (out, told) = refused(&folder, &table);
    assert!(out.contains("rows.bin  row 0        (empty)  suffix     4d  (empty)\n1 fault\n"), "{out}");
    let expected = "rows.bin: refusal 11 place 0: row 0 is the empty suffix, but its record names suffix 4d (M): \
the file was made for another set, or a row slipped\n";
    assert_eq!(told, expected);
    let remake = out.lines().find(|line| line.starts_with("this makes the tables again")).expect("a line");
    folder.done(remake.split("bezowik ").nth(1).expect("a command"));
    assert_eq!(Table { rows: folder.read("rows.bin"), bytes: folder.read("bytes.bin") }, bench_table());
    // and with a name that a shell would take apart
    folder.write("a b'c.bin", &table.rows);
    let (_, out, _) = folder.run_with(&["check", "w.bin", "a b'c.bin", "bytes.bin"]);
    assert!(out.contains("bezowik tables w.bin 'a b'\\''c.bin' bytes.bin --force\n"), "{out}");
}

#[test]
fn swapped_files() {
    let folder = Folder::bench("swapped_files");
    let (status, out, told) = folder.run("check w.bin bytes.bin rows.bin");
    let expected = "file       row or byte  suffix  number       found     largest
bytes.bin  row file               size  4096 bytes   144 bytes
rows.bin   byte file              size   144 bytes  4096 bytes
2 faults
the two files look swapped: bytes.bin is a byte file, rows.bin a row file
this checks them in their places: bezowik check w.bin rows.bin bytes.bin
";
    assert_eq!((status, out.as_str()), (1, expected));
    assert!(told.starts_with("bytes.bin: refusal 10 place 8: "));
    for one in ["check w.bin bytes.bin bytes.bin", "check w.bin rows.bin rows.bin"] {
        let (status, out, _) = folder.run(one);
        assert!(status == 1 && !out.contains("swapped"), "{out}");
    }
    let (_, json, _) = folder.run("check w.bin bytes.bin rows.bin --json");
    let json: serde_json::Value = serde_json::from_str(&json).expect("json");
    assert_eq!((&json["swapped"], &json["mend"]), (&true.into(), &"bezowik check w.bin rows.bin bytes.bin".into()));
    assert_eq!(json.get("explain"), Some(&serde_json::Value::Null));
}

/// The faults are the library's: none where it accepts, and its refusal is the first that its order of tests meets.
#[test]
fn faults_agree_with_the_library() {
    let (mut accepted, mut refused) = (0, 0);
    for seed in 0..400 {
        let mut random = Random::new(seed);
        let set = random_set(&mut random);
        let largest = bezowik::make(&set).expect("the set passes");
        let mut table = largest.clone();
        for _ in 0..random.below(6) {
            damage(&mut random, &mut table);
        }
        let answer = bezowik::check(&set, &table);
        let tables = Tables { row_name: PathBuf::from("rows"), byte_name: PathBuf::from("bytes"), table };
        let found = audit(&tables, &largest);
        let first = found.faults.first().map(|fault| (fault.number, fault.place));
        match answer.number {
            0 => assert_eq!(first, None, "seed {seed}"),
            number => assert_eq!(first, Some((number, usize::from(answer.place))), "seed {seed}"),
        }
        *(if answer.number == 0 { &mut accepted } else { &mut refused }) += 1;
    }
    assert!(accepted > 40 && refused > 40, "{accepted} accepted, {refused} refused");
}

/// A table changed at one place: a smaller number, any number, another suffix, another size.
fn damage(random: &mut Random, table: &mut Table) {
    let row = random.below(table.rows.len().max(ROW) / ROW);
    match random.below(12) {
        0 if !table.rows.is_empty() => table.rows.truncate(table.rows.len() - 1 - random.below(table.rows.len())),
        1 => table.bytes.truncate(random.below(BYTES)),
        2 if table.rows.len() >= ROW * (row + 1) => table.rows[ROW * row + random.below(16)] ^= 1,
        3 if table.rows.len() >= ROW * (row + 1) => {
            table.rows[ROW * row + 16 + random.below(2)] = random.below(17) as u8
        }
        4 if table.bytes.len() == BYTES => table.bytes[random.below(BYTES)] = random.below(17) as u8,
        5..=8 if table.rows.len() >= ROW * (row + 1) => table.rows[ROW * row + 17] = 1,
        _ if table.bytes.len() == BYTES => table.bytes[random.below(BYTES)] = 1,
        _ => {}
    }
}

#[test]
fn tables_written() {
    let folder = Folder::bench("tables_written");
    assert_eq!(folder.done("tables w.bin r.bin b.bin"), "r.bin: 8 rows written\nb.bin: 4096 far numbers written\n");
    assert_eq!(Table { rows: folder.read("r.bin"), bytes: folder.read("b.bin") }, bench_table());
}

#[test]
fn shown_and_taken_back() {
    let folder = Folder::bench("shown_and_taken_back");
    assert_eq!(folder.done("show w.bin"), "hex,energy,name\n4c 4d,40,LM\n41 4c 4d,55,ALM\n4c 4d 4c 41,90,LMLA\n");
    let rows = folder.done("show rows.bin");
    assert_eq!(
        rows,
        "row,suffix,inner,edge\n0,,1,2\n1,4d,2,2\n2,4c 4d,2,2\n3,41 4c 4d,2,2\n\
4,41,2,2\n5,4c 41,2,2\n6,4d 4c 41,2,2\n7,4c 4d 4c 41,2,2\n"
    );
    let bytes = folder.done("show bytes.bin");
    assert!(
        bytes.starts_with("byte,0,1,2,3,4,5,6,7,8,9,10,11,12,13,14,15\n00,2,2,") && bytes.contains("\n4c,1,2,1,2,2,"),
        "{bytes}"
    );
    assert_eq!(bytes.lines().count(), 257);
    folder.write("w.csv", folder.done("show w.bin").as_bytes());
    folder.write("r.csv", rows.as_bytes());
    // as a German spreadsheet writes it, with the zero of 0c gone
    folder.write("b.csv", bytes.replace(',', ";").replace("\n0", "\n").as_bytes());
    folder.done("set w.csv w2.bin");
    assert_eq!(folder.read("w2.bin"), bench_set());
    folder.done("tables w.bin r2.bin b2.bin --from r.csv b.csv");
    assert_eq!(Table { rows: folder.read("r2.bin"), bytes: folder.read("b2.bin") }, bench_table());
    let told = "t.bin: refusal 2 place 0: the set has 7 bytes, no multiple of 20: the file is cut short or is no keyword set; \
nor is it a row file or a byte file\n";
    assert_eq!(folder.fails(1, "show t.bin"), told);
}

/// A smaller number is taken, one that is not safe is refused, and so is a line that is wrong; then nothing is written.
#[test]
fn tables_from_csv() {
    let folder = Folder::bench("tables_from_csv");
    let (rows, bytes) = (folder.done("show rows.bin"), folder.done("show bytes.bin"));
    let before = folder.listed().len();
    let taken = |row_csv: String, byte_csv: String| {
        folder.write("r.csv", row_csv.as_bytes());
        folder.write("b.csv", byte_csv.as_bytes());
        folder.run("tables w.bin r2.bin b2.bin --from r.csv b.csv")
    };
    let cases = [
        (
            rows.replace("0,,1,2", "0,,2,2"),
            bytes.clone(),
            "r.csv: refusal 12 place 0: a number of row 0, the empty suffix, is not safe",
        ),
        (
            rows.clone(),
            bytes.replace("\n4c,1", "\n4c,2"),
            "b.csv: refusal 14 place 1216: the number of byte 4c (L) at depth 0 is not safe",
        ),
        (
            rows.replace("1,4d,2,2\n", ""),
            bytes.clone(),
            "r.csv line 3: the row 2 where row 1 must stand: rows are in order, and none is left out",
        ),
        (rows.replace("1,4d,", "1,4,"), bytes.clone(), "r.csv line 3: "),
        (
            rows.replace("1,4d,2,2", "1,4d,,x"),
            bytes.clone(),
            "r.csv line 3: inner is empty, and must be a number from 1 to 15",
        ),
        (rows.replace("1,4d,2,2", "1,4d,2"), bytes.clone(), "r.csv line 3: 3 cells, and a row has 4"),
        (rows.replace("row,", "no,"), bytes.clone(), "r.csv line 1: the first row must be row,suffix,inner,edge"),
        (
            rows.clone(),
            bytes.replace("\n4c,", "\n4d,"),
            "b.csv line 78: the byte 4d where 4c must stand: bytes are in order, and none is left out",
        ),
        (
            rows.clone(),
            bytes.replace("\n4c,1,", "\n4c,256,"),
            "b.csv line 78: far at depth 0 is 256, and must be a number from 1 to 15",
        ),
        (rows.clone(), bytes.replace("\nff", "\n\nxx"), "b.csv line 258: "),
        (rows.clone(), String::new(), "b.csv: no line in it: the first must be byte,0,1,"),
        (
            bytes.clone(),
            rows.clone(),
            "r.csv line 1: the first row must be row,suffix,inner,edge\nb.csv line 1: the first row must be byte,0,1,",
        ),
    ];
    for (row_csv, byte_csv, sentence) in cases {
        let (status, out, told) = taken(row_csv, byte_csv);
        assert_eq!((status, out.as_str()), (1, ""), "{told}");
        assert!(told.starts_with(sentence), "{told}");
        assert!(!folder.holds("r2.bin") && !folder.holds("b2.bin"));
    }
    assert_eq!(folder.listed().len(), before + 2);
    let (status, _, _) = taken(rows.replace("1,4d,2,2", "1,4d,1,1"), bytes);
    assert_eq!((status, folder.read("r2.bin")[ROW + 16], folder.read("r2.bin")[ROW + 17]), (0, 1, 1));
}
