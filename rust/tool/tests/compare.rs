//! `compare`: two builds or more, what makes the difference, and the status for build scripts.

#[path = "../../tests/common/mod.rs"]
mod common;
mod folder;

use bezowik::sets::record;
use folder::Folder;

/// A folder with W and the builds t (T), u, v and x.
fn builds(test: &str) -> Folder {
    let folder = Folder::bench(test);
    folder.write("u.bin", b"LMLM");
    folder.write("v.bin", b"LMLMLM");
    folder.write("x.bin", b"LMLA");
    folder
}

#[test]
fn two_builds() {
    let folder = builds("two_builds");
    let expected = "build  file   count  energy pJ  more than A pJ      %
A      t.bin      5        280
B      u.bin      2         80            -200  -71.4
B draws least: 200 pJ less than A (71.4 % less)

no  bytes        text  in A  in B  B - A pJ
 1  41 4c 4d     ALM      2     0      -110
 2  4c 4d 4c 41  LMLA     1     0       -90
1 keyword without a difference left out
";
    assert_eq!(folder.done("compare w.bin t.bin u.bin"), expected);
    let expected = "build  file   count  energy pJ  more than A pJ       %
A      u.bin      2         80
B      t.bin      5        280            +200  +250.0
A draws least: 200 pJ less than B (71.4 % less)

no  bytes        text  in A  in B  B - A pJ
 1  41 4c 4d     ALM      0     2      +110
 2  4c 4d 4c 41  LMLA     0     1       +90
1 keyword without a difference left out
";
    assert_eq!(folder.done("compare w.bin u.bin t.bin"), expected);
    let expected = "build  file   count  energy pJ  more than A pJ    %
A      t.bin      5        280
B      t.bin      5        280               0  0.0
A and B draw the same
3 keywords without a difference left out
";
    assert_eq!(folder.done("compare w.bin t.bin t.bin"), expected);
}

/// Up and down: the larger of the two first, whichever way it goes; and the other orders.
#[test]
fn orders() {
    let folder = builds("compare_orders");
    let table = |options: &str| {
        let out = folder.done(&format!("compare w.bin v.bin x.bin --text {options}"));
        out.lines().skip(5).map(String::from).collect::<Vec<_>>()
    };
    let (lm, lmla) = (" 0  LM       3     1       -80", " 2  LMLA     0     1       +90");
    let left = "1 keyword without a difference left out";
    assert_eq!(table(""), ["no  text  in A  in B  B - A pJ", lmla, lm, left]);
    assert_eq!(table("--sort energy"), ["no  text  in A  in B  B - A pJ", lm, lmla, left]);
    assert_eq!(table("--sort number"), ["no  text  in A  in B  B - A pJ", lm, lmla, left]);
    let more = "and 1 keyword more with a difference";
    assert_eq!(table("--top 1"), ["no  text  in A  in B  B - A pJ", lmla, more, left]);
}

#[test]
fn many_builds() {
    let folder = builds("many_builds");
    let expected = "build  file   count  energy pJ  more than A pJ      %
A      t.bin      5        280
B      u.bin      2         80            -200  -71.4
C      x.bin      2        130            -150  -53.6
D      u.bin      2         80            -200  -71.4
B and D draw least: 200 pJ less than A (71.4 % less)

no  bytes        text  in A  in B  in C  in D  B - A pJ  C - A pJ  D - A pJ
 1  41 4c 4d     ALM      2     0     0     0      -110      -110      -110
 2  4c 4d 4c 41  LMLA     1     0     1     0       -90         0       -90
 0  4c 4d        LM       2     2     1     2         0       -40         0
";
    assert_eq!(folder.done("compare w.bin t.bin u.bin x.bin u.bin"), expected);
    assert!(folder
        .done("compare w.bin u.bin t.bin x.bin")
        .contains("\nA draws least: 50 pJ less than C (38.5 % less)\n"));
    let many = ["t.bin"; 28].join(" ");
    let out = folder.done(&format!("compare w.bin {many}"));
    assert!(
        out.contains("\nZ      t.bin") && out.contains("\nAA     t.bin") && out.contains("\nAB     t.bin"),
        "{out}"
    );
}

#[test]
fn forms() {
    let folder = builds("compare_forms");
    let csv = "number,hex,text,occurrences A,energy A,occurrences B,energy B\n\
1,41 4c 4d,ALM,2,110,0,0\n2,4c 4d 4c 41,LMLA,1,90,0,0\n";
    assert_eq!(folder.done("compare w.bin t.bin u.bin --csv"), csv);
    let json: serde_json::Value =
        serde_json::from_str(&folder.done("compare w.bin t.bin u.bin --json --top 1")).expect("json");
    let expected = serde_json::json!({
        "set": "w.bin",
        "builds": [
            { "build": "A", "file": "t.bin", "count": 5, "energy": 280 },
            { "build": "B", "file": "u.bin", "count": 2, "energy": 80 },
        ],
        "least": ["B"],
        "keywords": [{ "number": 1, "hex": "41 4c 4d", "text": "ALM", "occurrences": [2, 0], "energies": [110, 0] }],
    });
    assert_eq!(json, expected);
}

/// The result is printed, and the status tells a build script that a build draws too much: exactly at the limit it does
/// not.
#[test]
fn fail_over() {
    let folder = builds("fail_over");
    let status = |arguments: &str| {
        let (status, out, told) = folder.run(&format!("compare w.bin {arguments}"));
        assert!(out.starts_with("build  file"), "{arguments}: {out}");
        (status, told)
    };
    // 80 against 280: 250 % more
    assert_eq!(status("u.bin t.bin --fail-over 250"), (0, String::new()));
    let told =
        |percent: &str| format!("t.bin: build B draws 280 pJ, over {percent} % more than the 80 pJ of build A\n");
    assert_eq!(status("u.bin t.bin --fail-over 249.999"), (4, told("249.999")));
    assert_eq!(status("u.bin t.bin --fail-over 0"), (4, told("0")));
    assert_eq!(status("u.bin t.bin --fail-over 2.50"), (4, told("2.5")));
    assert_eq!(status("t.bin u.bin --fail-over 0"), (0, String::new()));
    assert_eq!(status("u.bin u.bin --fail-over 0"), (0, String::new()));
    assert_eq!(status("u.bin t.bin t.bin --fail-over 7").1.lines().count(), 2);
    // more than nothing is more than any part of nothing
    folder.write("empty.bin", b"");
    assert_eq!(status("empty.bin u.bin --fail-over 999999999999").0, 4);
    for bad in ["-1", "x", "", "1,5", "1.2345", "9999999999999", "5%"] {
        let (status, out, _) = folder.run(&format!("compare w.bin u.bin t.bin --fail-over={bad}"));
        assert_eq!((status, out.as_str()), (2, ""), "{bad}");
    }
}

/// One picojoule between totals that a number with a point does not hold exactly is told, and counted by --fail-over.
#[test]
fn largest_totals() {
    let folder = Folder::new("largest_totals");
    let most = bezowik::ENERGY as u32;
    let words = (1..=15).flat_map(|n| record(&vec![0; n], most));
    folder.write("set.bin", &words.chain(record(b"A", 1)).chain(record(b"B", most)).collect::<Vec<u8>>());
    let trace = |last: u8| [vec![0; 1_048_575], vec![last]].concat();
    for (name, last) in [("x.bin", b'X'), ("a.bin", b'A'), ("b.bin", b'B')] {
        folder.write(name, &trace(last));
    }
    folder.write("empty.bin", b"");
    let expected = "build  file          count          energy pJ      more than A pJ       %
A      x.bin      15728520  67553478998753400
B      a.bin      15728521  67553478998753401                  +1    +0.0
C      b.bin      15728521  67553483293720695         +4294967295    +0.0
D      empty.bin         0                  0  -67553478998753400  -100.0
D draws least: 67553478998753400 pJ less than A (100.0 % less)

no  bytes     in A     in B     in C  in D  B - A pJ  C - A pJ           D - A pJ
 0  00     1048575  1048575  1048575     0         0         0  -4503595331354625
";
    let out = folder.done("compare set.bin x.bin a.bin b.bin empty.bin --hex --top 1");
    assert_eq!(out, format!("{expected}and 16 keywords more with a difference\n"));
    let told = "a.bin: build B draws 67553478998753401 pJ, over 0 % more than the 67553478998753400 pJ of build A\n";
    let (status, _, says) = folder.run("compare set.bin x.bin a.bin --fail-over 0");
    assert_eq!((status, says.as_str()), (4, told));
    let least = folder.done("compare set.bin a.bin x.bin --fail-over 0");
    assert!(least.contains("\nB draws least: 1 pJ less than A (0.0 % less)\n"), "{least}");
    folder.done("compare set.bin x.bin b.bin --fail-over 0.001");
    let json = folder.done("compare set.bin x.bin a.bin --json");
    for energy in ["67553478998753400", "67553478998753401"] {
        assert!(json.lines().any(|line| line.trim() == format!("\"energy\": {energy}")), "{json}");
    }
}

/// A part that is not the whole is not called all of it.
#[test]
fn almost_all() {
    let folder = Folder::new("almost_all");
    folder.write("set.bin", &[record(b"A", 65535), record(b"B", 1)].concat());
    folder.write("most.bin", &[vec![b'A'; 1000], vec![b'B']].concat());
    folder.write("all.bin", &[b'A'; 1000]);
    folder.write("b.bin", b"B");
    folder.write("empty.bin", b"");
    let shares = |trace: &str| {
        let out = folder.done(&format!("scan set.bin {trace}"));
        out.lines().skip(3).map(|line| line.split_whitespace().last().expect("a share").to_string()).collect::<Vec<_>>()
    };
    assert_eq!(shares("most.bin"), ["99.9", "0.0"]);
    assert_eq!(shares("all.bin"), ["100.0", "0.0"]);
    let verdict = |a: &str, b: &str| {
        folder.done(&format!("compare set.bin {a} {b}")).lines().nth(3).expect("a verdict").to_string()
    };
    assert_eq!(verdict("all.bin", "b.bin"), "B draws least: 65534999 pJ less than A (99.9 % less)");
    assert_eq!(verdict("empty.bin", "all.bin"), "A draws least: 65535000 pJ less than B (100.0 % less)");
    assert_eq!(verdict("most.bin", "all.bin"), "B draws least: 1 pJ less than A (0.0 % less)");
}
