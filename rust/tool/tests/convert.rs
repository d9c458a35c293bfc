//! `convert`: old sets made new ones, what is wrong with old sets, and what the other commands say of them.

#[path = "../../tests/common/mod.rs"]
mod common;
mod folder;

use bezowik::random::Random;
use bezowik::sets::record;
use bezowik::{slow, Answer, RECORD, ROW};
use bezowik_tool::files::Input;
use bezowik_tool::jobs::convert::converted;
use bezowik_tool::kinds::{kind, Kind};
use bezowik_tool::{old, records, Failure};
use common::{bench_set, damaged_set, random_set, BENCH_TRACE};
use folder::{bench_table, old_bench_set, old_record, Folder};
use std::path::Path;
use std::process::Command;

/// Every command that reads a set, with the set's name left out.
const READERS: [&str; 7] = [
    "scan SET t.bin",
    "scan SET t.bin --backward rows.bin bytes.bin",
    "compare SET t.bin t.bin",
    "tables SET r.bin b.bin",
    "check SET rows.bin bytes.bin",
    "show SET",
    "explain SET --byte 4c",
];

/// What an old set that passes is told by the commands that read sets.
fn reads_as(name: &str, records: usize) -> String {
    let records = if records == 1 { "1 old record".to_string() } else { format!("{records} old records") };
    format!(
        "note: {name} reads as {records} of 18 bytes, from before an energy had four: `bezowik convert {name} NEW.bin` \
makes a new set of it\n"
    )
}

/// A folder with W as an old set, W's tables and T.
fn old_bench(test: &str) -> Folder {
    let folder = Folder::bench(test);
    folder.write("old.bin", &old_bench_set());
    folder
}

/// Words and energies as an old set, and as a new one.
fn both_sets(keywords: &[(Vec<u8>, u16)]) -> [Vec<u8>; 2] {
    let old = keywords.iter().flat_map(|(word, energy)| old_record(word, *energy)).collect();
    let new = keywords.iter().flat_map(|(word, energy)| record(word, u32::from(*energy))).collect();
    [old, new]
}

/// Bytes that are old records and new ones, as many as make so many times 180: all lengths are 15, so that no byte must
/// be zero.
fn both_ways(random: &mut Random, times: usize) -> Vec<u8> {
    let mut bytes = random.bytes(180 * times, 256);
    for at in (0..bytes.len()).filter(|at| at % 18 == 0 || at % 20 == 0) {
        bytes[at] = 15;
    }
    bytes
}

/// An old set read as the paper would, or its refusal.
fn slow_old(bytes: &[u8]) -> Result<Vec<(Vec<u8>, u16)>, Answer> {
    let records = bytes.len() / 18;
    match (bytes.len(), bytes.len() % 18) {
        (0, _) => return Err(Answer::refused(1, 0)),
        (_, 1..) => return Err(Answer::refused(2, 0)),
        _ if records > 64 => return Err(Answer::refused(3, 0)),
        _ => {}
    }
    let mut keywords: Vec<(Vec<u8>, u16)> = Vec::new();
    for place in 0..records {
        let at = |i: usize| bytes[18 * place + i];
        let length = usize::from(at(0));
        if length == 0 || length > 15 {
            return Err(Answer::refused(4, place));
        }
        if (length + 1..16).any(|i| at(i) != 0) {
            return Err(Answer::refused(5, place));
        }
        let word: Vec<u8> = (1..=length).map(at).collect();
        if keywords.iter().any(|(other, _)| *other == word) {
            return Err(Answer::refused(6, place));
        }
        keywords.push((word, u16::from(at(16)) + 256 * u16::from(at(17))));
    }
    Ok(keywords)
}

#[test]
fn bench_example() {
    let folder = old_bench("convert_bench_example");
    let expected = "new.bin: 3 old records converted

no  bytes        text  energy pJ
 0  4c 4d        LM           40
 1  41 4c 4d     ALM          55
 2  4c 4d 4c 41  LMLA         90
";
    assert_eq!(folder.done("convert old.bin new.bin"), expected);
    assert_eq!((folder.read("new.bin"), folder.read("old.bin")), (bench_set(), old_bench_set()));
    assert!(folder.done("scan new.bin t.bin").starts_with("count 5 energy 280 questions 9\n"));
    // the tables stay those of the set
    folder.done("check new.bin rows.bin bytes.bin");
}

#[test]
fn energies_and_numbers_of_records() {
    let folder = Folder::new("energies_and_numbers_of_records");
    let energies = [0, 1, 255, 256, 65535];
    for records in [1, 2, 5, 63, 64] {
        let word = |i: usize| vec![i as u8; 1 + i % 15];
        let keywords: Vec<(Vec<u8>, u16)> = (0..records).map(|i| (word(i), energies[i % 5])).collect();
        let [old, new] = both_sets(&keywords);
        folder.write("old.bin", &old);
        let out = folder.done("convert old.bin new.bin");
        assert_eq!(folder.read("new.bin"), new);
        let lines: Vec<&str> = out.lines().skip(3).collect();
        assert_eq!(lines.len(), records);
        for (i, line) in lines.iter().enumerate() {
            assert!(line.trim_start().starts_with(&format!("{i}  ")), "{line}");
            assert!(line.ends_with(&format!(" {}", keywords[i].1)), "{line}");
        }
    }
}

#[test]
fn random_old_sets() {
    let folder = Folder::new("random_old_sets");
    for seed in 8000..8100 {
        println!("seed {seed}");
        let mut random = Random::new(seed);
        let words = slow::keywords(&random_set(&mut random)).expect("the set passes");
        let keywords: Vec<(Vec<u8>, u16)> = words.into_iter().map(|k| (k.word, k.energy as u16)).collect();
        let [old, new] = both_sets(&keywords);
        folder.write("old.bin", &old);
        folder.done("convert old.bin new.bin");
        assert_eq!((folder.read("new.bin"), folder.read("old.bin")), (new, old));
        // what is new already is not converted again
        let told = folder.fails(1, "convert new.bin new.bin");
        assert!(told.contains(" bytes already: nothing to convert"), "{told}");
    }
}

/// Old sets with something wrong, and the sentence of each.
fn faults() -> Vec<(Vec<u8>, String)> {
    let whole: Vec<u8> = (0..5).flat_map(|i| old_record(&vec![b'A'; 1 + i], 7)).collect();
    let changed = |at: usize, byte: u8| {
        let mut set = whole.clone();
        set[at] = byte;
        set
    };
    let cut = |size: usize| {
        let told = "the file is cut short or is no keyword set";
        (vec![1; size], format!("refusal 2 place 0: the set has {size} bytes, no multiple of 18: {told}"))
    };
    let many = |n: usize| (0..n).flat_map(|i| old_record(&[i as u8], 1)).collect::<Vec<u8>>();
    let mut faults = vec![
        (vec![], "refusal 1 place 0: the set has no bytes: it must have at least one record of 18 bytes".to_string()),
        cut(17),
        cut(19),
        cut(37),
        (many(65), "refusal 3 place 0: the set has 65 records, more than 64: split it".to_string()),
        (many(120), "refusal 3 place 0: the set has 120 records, more than 64: split it".to_string()),
    ];
    for (place, length) in [(0, 0), (0, 16), (0, 255), (4, 0), (4, 16), (4, 255)] {
        let told = format!("record {place} has the length {length}, and a keyword has 1 to 15 bytes");
        faults.push((changed(18 * place, length), format!("refusal 4 place {place}: {told}")));
    }
    for (place, behind, shown) in [(0, 2, "41 (A)"), (0, 15, "41 (A)"), (4, 6, "41 41 41 41 41 (AAAAA)")] {
        let told =
            format!("record {place}, keyword {shown}: the bytes behind the keyword, up to byte 15, must be zero");
        faults.push((changed(18 * place + behind, 1), format!("refusal 5 place {place}: {told}")));
        faults.push((changed(18 * place + 15, 255), format!("refusal 5 place {place}: {told}")));
    }
    let repeated = |set: Vec<u8>, place: usize, earlier: usize, shown: &str| {
        let told = format!("record {place} has the same bytes as record {earlier}, {shown}: take one of the two out");
        (set, format!("refusal 6 place {place}: {told}"))
    };
    faults.push(repeated([&whole[..18], &old_record(b"A", 8)].concat(), 1, 0, "41 (A)"));
    faults.push(repeated([&many(63)[..], &old_record(&[0], 1)].concat(), 63, 0, "00"));
    faults.push(repeated([&whole[..], &old_record(b"AAA", 9)].concat(), 5, 2, "41 41 41 (AAA)"));
    faults
}

/// Each fault is told, and no file is written, nor changed, nor left beside.
#[test]
fn faulty_old_sets() {
    let folder = Folder::bench("faulty_old_sets");
    let faults = faults();
    assert_eq!(faults.len(), 21);
    for (set, sentence) in faults {
        folder.write("old.bin", &set);
        let before = folder.listed();
        for command in ["old.bin new.bin", "old.bin w.bin", "old.bin old.bin", "old.bin w.bin --force", "old.bin -"] {
            assert_eq!(folder.fails(1, &format!("convert {command}")), format!("old.bin: {sentence}\n"));
            assert_eq!(folder.listed(), before, "{command}");
        }
        let (status, out, told) = folder.fed("convert - -", &set);
        assert_eq!((status, out, told), (Some(1), vec![], format!("standard input: {sentence}\n")));
    }
}

#[test]
fn files_that_need_no_conversion() {
    let folder = Folder::bench("files_that_need_no_conversion");
    let nine = |energy: u32| (0..9).flat_map(|i| record(&[b'A', i], energy)).collect::<Vec<u8>>();
    let already = |n: &str| format!("holds {n} of 20 bytes already");
    let (rows, bytes) =
        ("is a row file, and such files have not changed", "is a byte file, and such files have not changed");
    let cases = [
        (record(b"A", 1), already("1 record")),
        (bench_set(), already("3 records")),
        (nine(0), already("9 records")),
        (nine(65536), already("9 records")),
        (nine(u32::MAX), already("9 records")),
        ((0..63).flat_map(|i| record(&[i], 1 << 20)).collect(), already("63 records")),
        ((0..64).flat_map(|i| record(&[i; 15], u32::MAX)).collect(), already("64 records")),
        (bench_table().rows, rows.to_string()),
        ((0..10).flat_map(|i| records::row(&[1; 15][..i], 1, 1)).collect(), rows.to_string()),
        (bench_table().bytes, bytes.to_string()),
    ];
    for (file, sentence) in cases {
        folder.write("file.bin", &file);
        let before = folder.listed();
        for command in ["convert file.bin new.bin", "convert file.bin file.bin", "convert file.bin w.bin --force"] {
            let told = format!("file.bin: {sentence}: nothing to convert, it can be used as it is\n");
            assert_eq!(folder.fails(1, command), told);
            assert_eq!(folder.listed(), before);
        }
    }
    // a trace is no old set
    assert!(folder.fails(1, "convert t.bin new.bin").starts_with("t.bin: refusal 2 place 0: the set has 7 bytes, "));
    assert!(!folder.holds("new.bin"));
}

/// A size that is whole old records and whole new ones: `convert` takes it as old, and no other command does.
#[test]
fn sizes_of_both() {
    let folder = Folder::bench("sizes_of_both");
    for records in [10, 20, 30, 40, 50, 60] {
        let keywords: Vec<(Vec<u8>, u16)> = (0..records).map(|i| (format!("K{i}").into_bytes(), 100 + i)).collect();
        let [old, new] = both_sets(&keywords);
        assert_eq!((old.len() % RECORD, kind(&old)), (0, None));
        folder.write("old.bin", &old);
        let told = "old.bin: refusal 4 place 1: record 1 has the length 49, and a keyword has 1 to 15 bytes";
        let nor = "; nor is it a row file or a byte file";
        for command in READERS {
            let behind = if command == "show SET" { nor } else { "" };
            let expected = format!("{told}{behind}\n{}", reads_as("old.bin", records as usize));
            assert_eq!(folder.fails(1, &command.replace("SET", "old.bin")), expected);
        }
        folder.done("convert old.bin old.bin");
        assert_eq!(folder.read("old.bin"), new);
        folder.done("scan old.bin t.bin");
    }
}

/// Bytes that are an old set and a new one: each command takes them as its own, and says that they are both.
#[test]
fn sets_that_read_both_ways() {
    let folder = Folder::bench("sets_that_read_both_ways");
    for times in 1..=6 {
        let bytes = both_ways(&mut Random::new(times as u64), times);
        let (as_old, as_new) = (slow_old(&bytes).expect("an old set"), slow::keywords(&bytes).expect("a set"));
        let told = format!(
            "note: both.bin also reads as {} old records of 18 bytes: if it is an old set, \
`bezowik convert both.bin NEW.bin` makes a new one of it\n",
            as_old.len()
        );
        let table = bezowik::make(&bytes).expect("the set passes");
        folder.write("both.bin", &bytes);
        folder.write_table(&table);
        for command in READERS {
            let (status, out, says) = folder.run(&command.replace("SET", "both.bin"));
            assert_eq!((status, says.as_str()), (0, told.as_str()), "{command}");
            assert!(!out.is_empty());
        }
        let (_, out, _) = folder.run("show both.bin");
        assert_eq!(out.lines().count(), 1 + as_new.len());
        // behind another message, too
        folder.write("hit.bin", &as_new[0].word);
        let (status, _, says) = folder.run("compare both.bin t.bin hit.bin --fail-over 0");
        assert!(status == 4 && says.starts_with("hit.bin: build B draws ") && says.ends_with(&told), "{says}");
        folder.write("rows.bin", &table.rows[ROW..]);
        let (status, _, says) = folder.run("check both.bin rows.bin bytes.bin");
        assert!(status == 1 && says.starts_with("rows.bin: refusal 10 ") && says.ends_with(&told), "{says}");
        let (status, out, says) = folder.run("convert both.bin new.bin");
        let told = format!(
            "note: both.bin also reads as {} records of 20 bytes, and every other command reads it so: if the list is not \
that of your keywords, it was no old set, and needed no conversion\n",
            as_new.len()
        );
        assert_eq!((status, says), (0, told));
        assert!(out.starts_with(&format!("new.bin: {} old records converted\n", as_old.len())), "{out}");
        assert_eq!(folder.read("new.bin"), both_sets(&as_old)[1]);
    }
}

#[test]
fn in_place() {
    let folder = old_bench("convert_in_place");
    std::os::unix::fs::symlink("old.bin", folder.0.join("link.bin")).expect("a link can be made");
    for names in ["old.bin old.bin", "old.bin ./old.bin", "link.bin old.bin", "old.bin link.bin", "link.bin link.bin"] {
        folder.write("old.bin", &old_bench_set());
        let files = folder.listed().len();
        folder.done(&format!("convert {names}"));
        assert_eq!((folder.read("old.bin"), folder.listed().len()), (bench_set(), files), "{names}");
        let told = "holds 3 records of 20 bytes already: nothing to convert, it can be used as it is\n";
        assert!(folder.fails(1, &format!("convert {names}")).ends_with(told), "{names}");
        assert_eq!(folder.read("old.bin"), bench_set());
    }
}

/// What stands in the place of the new set is replaced by the rules of `set`.
#[test]
fn replaced_files() {
    let folder = old_bench("convert_replaced_files");
    let sets = [record(b"X", 1), old_record(b"X", 1), [old_record(b"X", 1), old_record(b"Y", 1)].concat(), vec![]];
    for there in sets {
        folder.write("new.bin", &there);
        folder.done("convert old.bin new.bin");
        assert_eq!(folder.read("new.bin"), bench_set());
    }
    let damaged = [old_record(b"X", 1), old_record(b"X", 1)].concat();
    for there in [bench_table().rows, bench_table().bytes, BENCH_TRACE.to_vec(), damaged, vec![0; 18], vec![b'7'; 36]] {
        folder.write("new.bin", &there);
        let told = "new.bin: is not a keyword set, and is not replaced; --force replaces it\n";
        assert_eq!(folder.fails(2, "convert old.bin new.bin"), told);
        assert_eq!(folder.read("new.bin"), there);
        folder.done("convert old.bin new.bin --force");
        assert_eq!(folder.read("new.bin"), bench_set());
    }
    assert_eq!(folder.fails(2, "convert . new.bin"), ".: cannot be read: Is a directory (os error 21)\n");
    assert_eq!(folder.fails(2, "convert old.bin ."), ".: cannot be written: is a directory\n");
}

/// Every command that reads sets ends with the command that converts an old one.
#[test]
fn old_sets_elsewhere() {
    let folder = old_bench("old_sets_elsewhere");
    let before = folder.listed();
    let told = "old.bin: refusal 2 place 0: the set has 54 bytes, no multiple of 20: the file is cut short or is no keyword set";
    for command in READERS {
        let nor = if command == "show SET" { "; nor is it a row file or a byte file" } else { "" };
        let expected = format!("{told}{nor}\n{}", reads_as("old.bin", 3));
        assert_eq!(folder.fails(1, &command.replace("SET", "old.bin")), expected);
    }
    assert_eq!(folder.listed(), before);
    let (_, _, says) = folder.fed("scan - t.bin", &old_record(b"LM", 40));
    let note = reads_as("standard input", 1).replace("convert standard input ", "convert - ");
    assert!(says.starts_with("standard input: refusal 2 ") && says.ends_with(&note), "{says}");
    // the command can be typed as it stands, whatever the name
    for name in ["my old set.bin", "it's.bin", "$HOME;echo.bin"] {
        folder.write(name, &old_bench_set());
        let (_, _, says) = folder.run_with(&["scan", name, "t.bin"]);
        let command = says.split('`').nth(1).expect("a command").replacen("bezowik", "\"$0\"", 1);
        let ran =
            Command::new("sh").args(["-c", &command, env!("CARGO_BIN_EXE_bezowik")]).current_dir(&folder.0).output();
        assert!(ran.expect("a shell runs").status.success(), "{command}");
        assert_eq!(folder.read("NEW.bin"), bench_set());
        std::fs::remove_file(folder.0.join("NEW.bin")).expect("the file is there");
    }
}

/// Where the size alone is that of an old set, `convert` is said to tell more, and does.
#[test]
fn damaged_old_sets_elsewhere() {
    let folder = Folder::bench("damaged_old_sets_elsewhere");
    for (set, sentence) in faults() {
        folder.write("old.bin", &set);
        let size = set.len() / 18;
        let records = if size == 1 { "1 old record".to_string() } else { format!("{size} old records") };
        let note = format!(
            "note: old.bin has the size of {records} of 18 bytes: if it is an old set, `bezowik convert old.bin NEW.bin` \
tells what is wrong in it\n"
        );
        let content = !["refusal 1 ", "refusal 2 ", "refusal 3 "].iter().any(|size| sentence.starts_with(size));
        for command in READERS {
            let told = folder.fails(1, &command.replace("SET", "old.bin"));
            assert_eq!(told.lines().count(), 1 + usize::from(content), "{told}");
            assert!(!content || told.ends_with(&note), "{told}");
        }
    }
}

/// What is no old set is told as ever.
#[test]
fn no_old_set() {
    let folder = Folder::bench("no_old_set");
    let longest: Vec<u8> = (0..64).flat_map(|i| record(&[i; 15], u32::MAX)).collect();
    let row_files =
        [2, 8, 10, 20, 64].map(|n| (0..n).flat_map(|i| records::row(&[7; 15][..i.min(15)], 1, 1)).collect());
    let others =
        [BENCH_TRACE.to_vec(), bench_table().bytes, bench_table().rows, vec![0; 18 * 65], vec![9; 180], vec![]];
    for file in others.into_iter().chain(row_files).chain([longest[..longest.len() - 1].to_vec()]) {
        folder.write("other.bin", &file);
        for command in READERS.iter().filter(|command| **command != "show SET" || kind(&file).is_none()) {
            let told = folder.fails(1, &command.replace("SET", "other.bin"));
            assert!(told.starts_with("other.bin: refusal ") && told.lines().count() == 1, "{told}");
        }
        if kind(&file).is_some() {
            folder.done("show other.bin");
        }
    }
    // sets that pass, of every number of records, and nothing is noted
    for n in 1..=64 {
        folder.write("set.bin", &longest[..RECORD * n]);
        folder.done("show set.bin");
    }
}

/// Any bytes beside a slow reading of them: what becomes of them, and what is said of them where a set is read.
#[test]
fn random_bytes() {
    let mut seen = [0; 9];
    for seed in 1..=30_000 {
        let bytes = any_file(&mut Random::new(seed));
        let (as_old, as_new) = (slow_old(&bytes), slow::keywords(&bytes));
        let shown = format!("seed {seed}: {}", bytes.escape_ascii());
        let file = Input { name: "f".into(), bytes };
        let said = old::suggested(Path::new("f"), &file);
        let said = ["f also reads as ", "f reads as ", "f has the size of "].map(|begin| {
            said.as_ref().is_some_and(|said| said.starts_with(begin) && said.contains("`bezowik convert f NEW.bin`"))
        });
        let whole = |old: &Answer, new: &Answer| old.number > 3 && new.number == 2;
        let expected = match (&as_old, &as_new) {
            (Ok(_), new) => [new.is_ok(), new.is_err(), false],
            (Err(old), Err(new)) => [false, false, whole(old, new) && kind(&file.bytes) != Some(Kind::Rows)],
            _ => [false; 3],
        };
        assert_eq!(said, expected, "{shown}");
        seen[outcome(&file, as_old, as_new.is_ok(), &shown)] += 1;
    }
    println!("converted, refused by 1 to 6, both, new already: {seen:?}");
    assert!(seen.iter().all(|&n| n > 20), "{seen:?}");
}

/// What becomes of a file, beside a slow reading of it: 0 for a set, 7 for one that was new too, 8 for one that was new
/// alone, else the refusal.
fn outcome(file: &Input, as_old: Result<Vec<(Vec<u8>, u16)>, Answer>, new: bool, shown: &str) -> usize {
    match (converted(file), as_old) {
        (Ok(set), Ok(keywords)) => {
            assert_eq!(set, both_sets(&keywords)[1], "{shown}");
            usize::from(new) * 7
        }
        (Err(Failure::Refused(told)), Err(refusal)) => {
            let sentence = format!("f: refusal {} place {}: ", refusal.number, refusal.place);
            assert_eq!(told.starts_with(&sentence), kind(&file.bytes).is_none(), "{told}, {shown}");
            if new {
                8
            } else {
                usize::from(refusal.number)
            }
        }
        _ => panic!("{shown}"),
    }
}

/// Bytes of a file: an old set, a new one, one that is both, a row file, or any; often damaged.
fn any_file(random: &mut Random) -> Vec<u8> {
    let new = random_set(random);
    let keywords = slow::keywords(&new).expect("the set passes");
    let old: Vec<u8> = keywords.iter().flat_map(|k| old_record(&k.word, k.energy as u16)).collect();
    let times = 1 + random.below(6);
    let mut bytes = match random.below(8) {
        0 => new,
        1 => both_ways(random, times),
        2 => bezowik::make(&new).expect("the set passes").rows,
        3 => random.bytes(180 * times, 4),
        4 => old.repeat(1 + random.below(3)),
        _ => old,
    };
    if random.once_in(3) {
        bytes = damaged_set(random, &bytes);
    }
    match random.below(8) {
        0 => bytes.truncate(random.below(60)),
        1 => bytes.truncate(18 * random.below(bytes.len() / 18 + 1)),
        2 if bytes.len() >= 18 => {
            let at = 18 * random.below(bytes.len() / 18) + random.below(17);
            bytes[at] = [0, 1, 15, 16, random.number() as u8][random.below(5)];
        }
        _ => {}
    }
    bytes
}
