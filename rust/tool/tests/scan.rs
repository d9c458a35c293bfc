//! `scan`: its table, its hits, its forms; a scan of any set and trace beside the slow count.

#[path = "../../tests/common/mod.rs"]
mod common;
mod folder;

use bezowik::random::Random;
use bezowik::sets::record;
use bezowik::{slow, RECORD};
use common::{random_set, random_trace};
use folder::Folder;
use std::process::{Command, Stdio};

const TOTALS: &str = "count 5 energy 280 questions 9\n";

const PARTS: &str = "
no  bytes        text  occurrences  energy pJ  share %
 0  4c 4d        LM              2         80     28.6
 1  41 4c 4d     ALM             2        110     39.3
 2  4c 4d 4c 41  LMLA            1         90     32.1
";

#[test]
fn bench_example() {
    let folder = Folder::bench("scan_bench_example");
    assert_eq!(folder.done("scan w.bin t.bin"), format!("{TOTALS}{PARTS}"));
    let two = "  3   1  41 4c 4d     ALM\n  3   0  4c 4d        LM\n";
    let rest = "  5   2  4c 4d 4c 41  LMLA\n  7   1  41 4c 4d     ALM\n  7   0  4c 4d        LM\n";
    let hits = |n: usize, lines: &str| format!("\nthe first {n} of 5 hits\nend  no  bytes        text\n{lines}");
    assert_eq!(folder.done("scan w.bin t.bin --hits 2"), format!("{TOTALS}{PARTS}{}", hits(2, two)));
    assert_eq!(folder.done("scan w.bin t.bin --hits 0"), format!("{TOTALS}{PARTS}{}", hits(0, "")));
    for all in ["5", "9", "99999999999999999999999"] {
        let expected = format!("{TOTALS}{PARTS}{}", hits(5, &format!("{two}{rest}")));
        assert_eq!(folder.done(&format!("scan w.bin t.bin --hits {all}")), expected);
        let backward = folder.done(&format!("scan --hits {all} --backward rows.bin bytes.bin w.bin t.bin"));
        assert_eq!(backward, expected.replace("questions 9", "questions 13"));
    }
}

#[test]
fn looks_and_orders() {
    let folder = Folder::bench("looks_and_orders");
    let hex = "count 5 energy 280 questions 9

no  bytes        occurrences  energy pJ  share %
 1  41 4c 4d               2        110     39.3
 2  4c 4d 4c 41            1         90     32.1
 0  4c 4d                  2         80     28.6

the first 1 of 5 hits
end  no  bytes
  3   1  41 4c 4d
";
    assert_eq!(folder.done("scan w.bin t.bin --hex --sort energy --hits 1"), hex);
    let text = "count 5 energy 280 questions 9

no  text  occurrences  energy pJ  share %
 0  LM              2         80     28.6
 1  ALM             2        110     39.3
and 1 keyword more
";
    assert_eq!(folder.done("scan w.bin t.bin --text --sort occurrences --top 2"), text);
    assert_eq!(folder.done("scan w.bin t.bin --top 3"), format!("{TOTALS}{PARTS}"));
    assert!(folder.done("scan w.bin t.bin --top 0").ends_with("share %\nand 3 keywords more\n"));
}

#[test]
fn forms() {
    let folder = Folder::bench("scan_forms");
    let csv = "number,hex,text,occurrences,energy\n1,41 4c 4d,ALM,2,110\n2,4c 4d 4c 41,LMLA,1,90\n";
    assert_eq!(folder.done("scan w.bin t.bin --csv --sort energy --top 2"), csv);
    assert_eq!(folder.done("scan w.bin t.bin --csv --hits 2"), "end,number,hex,text\n3,1,41 4c 4d,ALM\n3,0,4c 4d,LM\n");
    let json: serde_json::Value = serde_json::from_str(&folder.done("scan w.bin t.bin --json --hits 1")).expect("json");
    let expected = serde_json::json!({
        "set": "w.bin", "trace": "t.bin", "scan": "forward", "count": 5, "energy": 280, "questions": 9,
        "keywords": [
            { "number": 0, "hex": "4c 4d", "text": "LM", "occurrences": 2, "energy": 80 },
            { "number": 1, "hex": "41 4c 4d", "text": "ALM", "occurrences": 2, "energy": 110 },
            { "number": 2, "hex": "4c 4d 4c 41", "text": "LMLA", "occurrences": 1, "energy": 90 },
        ],
        "hits": [{ "end": 3, "number": 1 }],
    });
    assert_eq!(json, expected);
    let backward = folder.done("scan w.bin t.bin --json --backward rows.bin bytes.bin");
    let json: serde_json::Value = serde_json::from_str(&backward).expect("json");
    assert_eq!((&json["scan"], &json["questions"], json.get("hits")), (&"backward".into(), &13.into(), None));
}

/// Text that a csv must quote, text that is none, and a largest energy.
#[test]
fn keywords_of_all_kinds() {
    let folder = Folder::new("keywords_of_all_kinds");
    folder.write(
        "set.bin",
        &[record(b"a,\"", 4294967295), record(b" b", 1), record(&[0x4c, 0], 2), record(&[0x7f], 3)].concat(),
    );
    folder.write("trace.bin", b"a,\" bL\0\x7f");
    let expected = "count 4 energy 4294967301 questions 11

no  bytes     text  occurrences   energy pJ  share %
 0  61 2c 22  a,\"             1  4294967295     99.9
 1  20 62      b              1           1      0.0
 2  4c 00                     1           2      0.0
 3  7f                        1           3      0.0
";
    assert_eq!(folder.done("scan set.bin trace.bin"), expected);
    let csv =
        "number,hex,text,occurrences,energy\n0,61 2c 22,\"a,\"\"\",1,4294967295\n1,20 62, b,1,1\n2,4c 00,,1,2\n3,7f,,1,3\n";
    assert_eq!(folder.done("scan set.bin trace.bin --csv"), csv);
    assert!(folder.done("scan set.bin trace.bin --text").contains("\n 3  [7f]  "));
    let json: serde_json::Value = serde_json::from_str(&folder.done("scan set.bin trace.bin --json")).expect("json");
    assert_eq!(
        (&json["keywords"][0]["text"], &json["keywords"][2]["text"]),
        (&"a,\"".into(), &serde_json::Value::Null)
    );
}

#[test]
fn empty_trace() {
    let folder = Folder::bench("empty_trace");
    folder.write("empty.bin", b"");
    let expected = "count 0 energy 0 questions 0

no  bytes        text  occurrences  energy pJ  share %
 0  4c 4d        LM              0          0        -
 1  41 4c 4d     ALM             0          0        -
 2  4c 4d 4c 41  LMLA            0          0        -
";
    assert_eq!(folder.done("scan w.bin empty.bin"), expected);
    assert_eq!(folder.done("scan w.bin empty.bin --backward rows.bin bytes.bin"), expected);
    let hits = "\nthe first 0 of 0 hits\nend  no  bytes        text\n";
    assert_eq!(folder.done("scan w.bin empty.bin --hits 5"), format!("{expected}{hits}"));
    assert_eq!(folder.done("scan w.bin empty.bin --hits 5 --csv"), "end,number,hex,text\n");
}

#[test]
fn long_traces() {
    let folder = Folder::new("long_traces");
    // fifteen hits at almost every end: the most that there can be
    let set: Vec<u8> = (1..=15).flat_map(|n| record(&vec![0; n], 1)).collect();
    folder.write("set.bin", &set);
    folder.write("trace.bin", &vec![0; 1_048_576]);
    let out = folder.done("scan set.bin trace.bin --hits 3 --hex");
    let count = 15 * 1_048_576 - 105;
    assert!(out.starts_with(&format!("count {count} energy {count} questions ")), "{out}");
    let last = format!("14  {}      1048562    1048562      6.7", ["00"; 15].join(" "));
    assert!(out.lines().any(|line| line == last), "{out}");
    assert!(
        out.ends_with("\nthe first 3 of 15728535 hits\nend  no  bytes\n  1   0  00\n  2   1  00 00\n  2   0  00\n"),
        "{out}"
    );
    folder.write("trace.bin", &vec![0; 1_048_577]);
    folder.write("short.bin", b"");
    let told = "trace.bin: refusal 8 place 0: the trace has over 1,048,576 bytes: cut it into parts, and begin each \
later part 14 bytes before the cut; the count and the energy of the whole are the sums over the parts, less those of \
each later part's first 14 bytes alone\n";
    for command in
        ["scan set.bin trace.bin", "compare set.bin trace.bin short.bin", "compare set.bin short.bin trace.bin"]
    {
        assert_eq!(folder.fails(1, command), told);
    }
}

/// The most energy that a scan can find, to the last digit: more than a number with a point holds exactly.
#[test]
fn most_energy() {
    let folder = Folder::new("most_energy");
    let most = bezowik::ENERGY as u32;
    let set: Vec<u8> = (1..=15).flat_map(|n| record(&vec![0; n], most)).collect();
    folder.write("set.bin", &set);
    folder.write("trace.bin", &vec![0; 1_048_576]);
    folder.done("tables set.bin rows.bin bytes.bin");
    let (energy, first, last) = (67_553_543_423_262_825_u64, 4_503_599_626_321_920_u64, 4_503_539_496_779_790_u64);
    for backward in ["", " --backward rows.bin bytes.bin"] {
        let scan = format!("scan set.bin trace.bin{backward}");
        let out = folder.done(&scan);
        assert!(out.starts_with(&format!("count 15728535 energy {energy} questions ")), "{out}");
        for share in [format!("1048576  {first}      6.7"), format!("1048562  {last}      6.7")] {
            assert!(out.lines().any(|line| line.ends_with(&share)), "{out}");
        }
        let json = folder.done(&format!("{scan} --json"));
        for number in [energy, first, last] {
            assert!(
                json.lines().any(|line| line.trim().trim_end_matches(',') == format!("\"energy\": {number}")),
                "{json}"
            );
        }
        let csv = folder.done(&format!("{scan} --csv"));
        let energies = csv.lines().skip(1).map(|line| line.rsplit(',').next().and_then(|e| e.parse::<u64>().ok()));
        assert_eq!(energies.sum::<Option<u64>>(), Some(energy));
    }
}

/// A scan under a table that is not safe prints nothing, and says which number is wrong and what it may be.
#[test]
fn refused_tables() {
    let folder = Folder::bench("refused_tables");
    let mut table = folder::bench_table();
    table.rows[16] = 2;
    folder.write_table(&table);
    let expected = "rows.bin: refusal 12 place 0: a number of row 0, the empty suffix, is not safe
  inner is 2: the largest safe number is 1, and a larger one can lose hits
  edge is 2: safe, and the largest safe number is 2
";
    assert_eq!(folder.fails(1, "scan w.bin t.bin --backward rows.bin bytes.bin"), expected);
    let mut table = folder::bench_table();
    table.bytes[16 * 7 + 15] = 0;
    folder.write_table(&table);
    let expected = "bytes.bin: refusal 14 place 127: the number of byte 07 at depth 15 is not safe
  far is 0: the largest safe number is 2, and 0 never moves on
";
    assert_eq!(folder.fails(1, "scan w.bin t.bin --backward rows.bin bytes.bin"), expected);
}

#[test]
fn refused_sets() {
    let folder = Folder::bench("refused_sets");
    let mut padded = common::bench_set();
    padded[RECORD + 15] = 1;
    let mut long = common::bench_set();
    long[RECORD] = 16;
    let again = [common::bench_set(), record(b"ALM", 7)].concat();
    let cases: [(Vec<u8>, &str); 6] = [
        (vec![], "refusal 1 place 0: the set has no bytes: it must have at least one record of 20 bytes"),
        (vec![0; 19], "refusal 2 place 0: the set has 19 bytes, no multiple of 20: the file is cut short or is no keyword set"),
        (vec![0; 65 * 20], "refusal 3 place 0: the set has 65 records, more than 64: split it"),
        (long, "refusal 4 place 1: record 1 has the length 16, and a keyword has 1 to 15 bytes"),
        (padded, "refusal 5 place 1: record 1, keyword 41 4c 4d (ALM): the bytes behind the keyword, up to byte 15, must be zero"),
        (again, "refusal 6 place 3: record 3 has the same bytes as record 1, 41 4c 4d (ALM): take one of the two out"),
    ];
    for (set, sentence) in cases {
        folder.write("bad.bin", &set);
        let commands = [
            "tables bad.bin r.bin b.bin",
            "check bad.bin rows.bin bytes.bin",
            "scan bad.bin t.bin",
            "scan bad.bin t.bin --json",
            "scan bad.bin t.bin --backward rows.bin bytes.bin",
            "compare bad.bin t.bin t.bin",
        ];
        for command in commands {
            assert_eq!(folder.fails(1, command), format!("bad.bin: {sentence}\n"));
        }
        assert!(!folder.holds("r.bin") && !folder.holds("b.bin"));
    }
}

#[test]
fn random_scans() {
    let folder = Folder::new("random_scans");
    for seed in 7000..7030 {
        println!("seed {seed}");
        let mut random = Random::new(seed);
        let set = random_set(&mut random);
        let trace = random_trace(&mut random, &set, 400);
        let keywords = slow::keywords(&set).expect("the set passes");
        let hits = slow::hits(&keywords, &trace);
        let found = slow::found(&keywords, &hits, slow::questions(&keywords, &trace));
        folder.write("set.bin", &set);
        folder.write("trace.bin", &trace);
        folder.done("tables set.bin rows.bin bytes.bin --force");
        for backward in ["", " --backward rows.bin bytes.bin"] {
            let json: serde_json::Value =
                serde_json::from_str(&folder.done(&format!("scan set.bin trace.bin --json --hits 100000{backward}")))
                    .expect("json");
            assert_eq!((&json["count"], &json["energy"]), (&found.count.into(), &found.energy.into()));
            if backward.is_empty() {
                assert_eq!(json["questions"], found.questions);
            }
            for (k, keyword) in keywords.iter().enumerate() {
                let occurrences = hits.iter().filter(|hit| hit.1 == k as u32).count() as u64;
                let told = &json["keywords"][k];
                assert_eq!(
                    (&told["occurrences"], &told["energy"]),
                    (&occurrences.into(), &(occurrences * keyword.energy).into())
                );
            }
            let listed: Vec<(u64, u64)> = json["hits"]
                .as_array()
                .expect("a list")
                .iter()
                .map(|hit| (hit["end"].as_u64().unwrap(), hit["number"].as_u64().unwrap()))
                .collect();
            assert!(listed.iter().copied().eq(hits.iter().map(|hit| (u64::from(hit.0), u64::from(hit.1)))));
        }
    }
}

#[test]
fn a_reader_that_goes_away() {
    let folder = Folder::new("a_reader_that_goes_away");
    folder.write("set.bin", &record(b"A", 1));
    folder.write("trace.bin", &vec![b'A'; 100_000]);
    let arguments = ["scan", "set.bin", "trace.bin", "--hits", "100000"];
    let mut command = Command::new(env!("CARGO_BIN_EXE_bezowik"));
    let mut tool = command
        .args(arguments)
        .current_dir(&folder.0)
        .stdout(Stdio::piped())
        .stderr(Stdio::piped())
        .spawn()
        .expect("the tool runs");
    drop(tool.stdout.take());
    let output = tool.wait_with_output().expect("the tool ends");
    assert_eq!((output.status.code(), output.stderr), (Some(0), vec![]));
}
