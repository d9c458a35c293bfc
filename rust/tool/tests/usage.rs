//! Arguments: help, suggestions, the version, what is misused, and names that a terminal would obey.

#[path = "../../tests/common/mod.rs"]
mod common;
mod folder;

use folder::Folder;

#[test]
fn help() {
    let folder = Folder::bench("help");
    let help = folder.done("--help");
    for word in ["set", "convert", "tables", "check", "scan", "compare", "show", "explain", "completions"] {
        assert!(help.contains(&format!("\n  {word} ")), "{word}");
    }
    assert!(help.contains("Exit status: 0 done; 1 a refusal"), "{help}");
    assert_eq!(folder.done("-h"), help);
    let set = folder.done("set --help");
    assert!(set.contains("--text") && set.contains("--force") && set.contains("A first row names"), "{set}");
    assert!(set.contains(&format!("0 to {}. ", bezowik::ENERGY)), "{set}");
    assert_eq!(folder.done("help set"), set);
    let convert = folder.done("convert --help");
    for word in ["<OLD.bin> <NEW.bin>", "--force", "18 bytes", "20 bytes", "convert set.bin set.bin", "180 bytes"] {
        assert!(convert.contains(word), "{word}: {convert}");
    }
    let explain = folder.done("explain --help");
    for word in ["--byte <BYTE>", "[SUFFIX]", "'4c 4d'", "'\"LM\"'", "''", "--byte 4c"] {
        assert!(explain.contains(word), "{word}: {explain}");
    }
    assert_eq!(folder.done("--version"), concat!("bezowik ", env!("CARGO_PKG_VERSION"), "\n"));
    assert!(folder.fails(2, "").contains("Usage: bezowik <COMMAND>"));
    for shell in ["bash", "zsh", "fish"] {
        let completions = folder.done(&format!("completions {shell}"));
        assert!(completions.contains("compare") && completions.contains("convert"), "{shell}");
    }
    for told in [help, set, convert, explain].iter().flat_map(|text| text.lines()) {
        assert!(told.chars().count() <= 100, "{told}");
    }
}

/// Each of these is told with what is wrong, and nothing is printed or written.
#[test]
fn misuse() {
    let folder = Folder::bench("misuse");
    let before = folder.listed();
    let cases = [
        ("scna w.bin t.bin", "Did you mean 'scan'?"),
        ("scan w.bin t.bin --backwards rows.bin bytes.bin", "--backward"),
        ("set w.csv", "<SET.bin>"),
        ("convert w.bin", "<NEW.bin>"),
        ("convert w.bin n.bin b.bin", "b.bin"),
        ("tables w.bin r.bin", "<BYTES.bin>"),
        ("check w.bin rows.bin bytes.bin t.bin", "t.bin"),
        ("compare w.bin t.bin", "2 values"),
        ("scan w.bin", "<TRACE.bin>"),
        ("scan w.bin t.bin --hits", "--hits <N>"),
        ("scan w.bin t.bin --hits=-1", "it must be a number, such as 10"),
        ("scan w.bin t.bin --hits some", "it must be a number, such as 10"),
        ("scan w.bin t.bin --hits 1 --hits 2", "--hits"),
        ("scan w.bin t.bin --backward rows.bin", "--backward <ROWS.bin> <BYTES.bin>"),
        ("scan w.bin t.bin --json --csv", "--json"),
        ("scan w.bin t.bin --hex --text", "--hex"),
        ("scan w.bin t.bin --sort size", "energy"),
        ("compare w.bin t.bin t.bin --fail-over much", "such as 5 or 2.5"),
        ("tables w.bin - b.bin", "two files are written, so that neither can be standard output"),
        ("tables w.bin r.bin -", "two files are written, so that neither can be standard output"),
        ("explain w.bin", "bezowik explain <SET.bin> --byte <BYTE>"),
        ("explain w.bin 4c --byte 4c", "'[SUFFIX]' cannot be used with '--byte <BYTE>'"),
        ("scan - -", "standard input can be read only once"),
        ("compare w.bin - t.bin -", "standard input can be read only once"),
        ("check w.bin - -", "standard input can be read only once"),
        ("tables w.bin r.bin b.bin --from - -", "standard input can be read only once"),
        ("set w.bin w.bin", "w.bin and w.bin are the same file"),
        ("tables w.bin ./w.bin b.bin", "w.bin and ./w.bin are the same file"),
        ("tables w.bin r.bin r.bin", "r.bin and r.bin are the same file"),
        ("tables w.bin r.bin b.bin --from r.bin t.bin", "r.bin and r.bin are the same file"),
    ];
    for (arguments, sentence) in cases {
        let told = folder.fails(2, arguments);
        assert!(told.contains(sentence), "{arguments}: {told}");
    }
    assert_eq!(folder.listed(), before);
}

/// Behind -- a name may begin as an option does.
#[test]
fn names_like_options() {
    let folder = Folder::bench("names_like_options");
    folder.write("--hits", common::BENCH_TRACE);
    assert!(folder.done("scan w.bin -- --hits").starts_with("count 5 energy 280 questions 9\n"));
}

/// A name is repeated without what a terminal would obey, whoever repeats it.
#[test]
fn names_with_control_characters() {
    let folder = Folder::bench("names_with_control_characters");
    let name = "\u{1b}[31mx\u{202e}\u{7}\n.bin";
    let safe = "\\x1b[31mx\\u{202e}\\x07\\x0a.bin";
    folder.write(name, common::BENCH_TRACE);
    folder.write("old.bin", &folder::old_bench_set());
    let bare = |text: &str| !text.chars().any(|c| (c.is_control() && c != '\n') || c == '\u{202e}');
    let commands: [&[&str]; 14] = [
        &["scan", "w.bin", name],
        &["scan", "w.bin", "t.bin", "--backward", name, "bytes.bin"],
        &["scan", name, "t.bin"],
        &["compare", "w.bin", "t.bin", name],
        &["check", "w.bin", name, "bytes.bin"],
        &["show", name],
        &["convert", name, "n.bin"],
        &["convert", "old.bin", name],
        &["explain", name, "4c"],
        &["explain", "w.bin", name],
        &["explain", "w.bin", "--byte", name],
        &["tables", "w.bin", name, "b.bin"],
        &[name],
        &["scan", "w.bin", "t.bin", "--sort", name],
    ];
    for command in commands {
        let (_, out, told) = folder.run_with(command);
        assert!(bare(&out) && bare(&told), "{command:?}: {out:?} {told:?}");
        // a forward scan's table names no file
        assert!(command == commands[0] || out.contains(safe) || told.contains(safe), "{command:?}: {out} {told}");
    }
    // a part of an argument, too
    let (_, _, told) = folder.run_with(&["scan", "w.bin", "t.bin", "--sort=\u{1b}[31mx"]);
    assert!(bare(&told) && told.contains("\\x1b[31mx"), "{told:?}");
}

/// Standard input and output in the place of a file.
#[test]
fn standard_streams() {
    let folder = Folder::bench("standard_streams");
    let totals = "count 5 energy 280 questions 9\n";
    assert!(folder.fed("scan w.bin -", common::BENCH_TRACE).1.starts_with(totals.as_bytes()));
    assert!(folder.fed("scan - t.bin", &common::bench_set()).1.starts_with(totals.as_bytes()));
    assert_eq!(folder.fed("show -", &folder.read("rows.bin")).1, folder.done("show rows.bin").as_bytes());
    let (status, out, told) = folder.fed("set - -", b"text,energy\nLM,40\nALM,55\nLMLA,90\n");
    assert_eq!((status, out), (Some(0), common::bench_set()));
    assert!(told.starts_with("3 keywords written\n\nno  line  bytes "), "{told}");
    let (status, out, told) = folder.fed("set - -", b"LM,40\n");
    assert_eq!((status, out), (Some(1), vec![]));
    assert!(told.starts_with("standard input line 1: "), "{told}");
    assert_eq!(folder.fed("tables - r.bin b.bin", &common::bench_set()).0, Some(0));
    assert_eq!(folder.read("r.bin"), folder.read("rows.bin"));
}
