//! The files that the tool reads and writes: which are one, which are replaced, and what is there when one cannot be
//! written.

#[path = "../../tests/common/mod.rs"]
mod common;
mod folder;

use bezowik::sets::record;
use bezowik::Table;
use common::{bench_set, BENCH_TRACE};
use folder::{bench_table, old_bench_set, old_record, Folder};
use std::fs::{self, File, Permissions};
use std::io::{Read, Seek, Write};
use std::os::unix::fs::{chown, symlink, MetadataExt, PermissionsExt};
use std::os::unix::process::CommandExt;
use std::process::{Command, Output, Stdio};

const BENCH_CSV: &[u8] = b"text,energy\nLM,40\nALM,55\nLMLA,90\n";

/// A folder with W as a csv and as a set, its tables and T.
fn bench(test: &str) -> Folder {
    let folder = Folder::bench(test);
    folder.write("w.csv", BENCH_CSV);
    folder
}

/// The exit status, the output and the messages of a run.
fn ended(output: Output) -> (Option<i32>, Vec<u8>, String) {
    (output.status.code(), output.stdout, String::from_utf8(output.stderr).expect("the tool writes text"))
}

/// The tool run as one who can write in the folder and nowhere else, so that no fault of it can reach the devices of
/// the machine or a file that is protected: root has another user run it.
fn confined(folder: &Folder, arguments: &str) -> Command {
    let copy = folder.0.join("tool");
    if !copy.exists() {
        // not by this process: one that another test starts would hold the copy open, and it could not be run
        let copied = Command::new("cp").arg(env!("CARGO_BIN_EXE_bezowik")).arg(&copy).status().expect("cp runs");
        assert!(copied.success());
        set_mode(folder, "", 0o777);
    }
    let mut command = Command::new(copy);
    command.args(arguments.split_whitespace()).current_dir(&folder.0);
    if fs::metadata(&folder.0).expect("the folder is there").uid() == 0 {
        command.uid(65534).gid(65534);
    }
    command
}

/// The exit status, the output and the messages of the tool run confined.
fn run_confined(folder: &Folder, arguments: &str) -> (Option<i32>, Vec<u8>, String) {
    ended(confined(folder, arguments).output().expect("the tool runs"))
}

/// The first line of a message.
fn first(told: &str) -> &str {
    told.lines().next().unwrap_or_default()
}

/// The permissions of a file of the folder.
fn mode(folder: &Folder, name: &str) -> u32 {
    fs::metadata(folder.0.join(name)).expect("the file is there").mode() & 0o7777
}

/// Gives a file of the folder its permissions.
fn set_mode(folder: &Folder, name: &str, mode: u32) {
    fs::set_permissions(folder.0.join(name), Permissions::from_mode(mode)).expect("the permissions can be set");
}

/// A link in the folder.
fn link(folder: &Folder, to: &str, name: &str) {
    symlink(to, folder.0.join(name)).expect("a link can be made");
}

/// A folder in the folder.
fn inner(folder: &Folder, name: &str) {
    fs::create_dir(folder.0.join(name)).expect("a folder can be made");
}

/// Two names of one file, be it there or not, are told before anything is written.
#[test]
fn names_of_one_file() {
    let folder = bench("names_of_one_file");
    fs::hard_link(folder.0.join("w.bin"), folder.0.join("hard.bin")).expect("a hard link can be made");
    for (to, name) in [("w.bin", "soft.bin"), ("n.bin", "dangling.bin"), ("loop.bin", "loop.bin")] {
        link(&folder, to, name);
    }
    let own = folder.0.file_name().and_then(|name| name.to_str()).expect("the folder has a name");
    let (around, whole) = (format!("../{own}/n.bin"), folder.0.join("n.bin").display().to_string());
    let before = folder.listed();
    let pairs = [
        ("w.bin", "hard.bin"),
        ("w.bin", "soft.bin"),
        ("n.bin", "n.bin"),
        ("n.bin", "./n.bin"),
        ("n.bin", &around),
        ("./n.bin", &whole),
        ("n.bin", "dangling.bin"),
    ];
    for (one, other) in pairs {
        for (a, b) in [(one, other), (other, one)] {
            for command in [
                format!("tables {a} r.bin {b}"),
                format!("tables {a} {b} r.bin --force"),
                format!("tables rows.bin {a} {b}"),
                format!("set {a} {b} --force"),
            ] {
                assert_eq!(first(&folder.fails(2, &command)), format!("{a} and {b} are the same file"));
            }
        }
    }
    assert!(folder.fails(2, "tables w.bin loop.bin r.bin").starts_with("loop.bin: cannot be written: "));
    assert_eq!(folder.listed(), before);
    // one name in two folders is two files
    inner(&folder, "in");
    folder.done("tables w.bin n.bin in/n.bin");
    assert_eq!(Table { rows: folder.read("n.bin"), bytes: folder.read("in/n.bin") }, bench_table());
}

/// Where a file cannot be written, no file has changed, and none is there that was not.
#[test]
fn no_half_result() {
    let folder = bench("no_half_result");
    folder.write("old.bin", &[7; 5000]);
    folder.write("empty.bin", b"");
    link(&folder, "made.bin", "dangling.bin");
    inner(&folder, "in");
    for name in ["old.bin", "empty.bin"] {
        set_mode(&folder, name, 0o666);
    }
    drop(confined(&folder, ""));
    let of_old = || {
        fs::metadata(folder.0.join("old.bin"))
            .map(|found| (found.modified().ok(), found.ino()))
            .expect("the file is there")
    };
    let (before, old) = (folder.listed(), of_old());
    for good in ["old.bin", "empty.bin", "n.bin", "dangling.bin"] {
        // the last can be opened and not written
        for bad in ["none/file", "in", "n.bin/", "w.bin/file", "/dev/full"] {
            for files in [format!("{good} {bad}"), format!("{bad} {good}")] {
                let (status, _, told) = run_confined(&folder, &format!("tables w.bin {files} --force"));
                assert_eq!(status, Some(2));
                let same = first(&told).ends_with(" are the same file");
                assert!(
                    same || told.starts_with(&format!("{bad}: cannot be written: ")) && told.lines().count() == 1,
                    "{told}"
                );
                assert_eq!(folder.listed(), before, "{files}");
            }
        }
    }
    assert_eq!(of_old(), old);
    assert_eq!(folder.fails(2, "set w.csv in"), "in: cannot be written: is a directory\n");
    // a longer file is replaced whole, and what a link points to is made
    folder.done("tables w.bin old.bin dangling.bin --force");
    assert_eq!(Table { rows: folder.read("old.bin"), bytes: folder.read("made.bin") }, bench_table());
}

/// What may be there already: sets, row files, byte files, nothing, a trace, csvs, parts of a set and of a table.
fn there() -> Vec<(Vec<u8>, Option<&'static str>)> {
    let (set, old) =
        ([record(b"X", 7), record(b"XY", 8)].concat(), [old_record(b"X", 7), old_record(b"XY", 8)].concat());
    let table = bezowik::make(&set).expect("the set passes");
    let damaged = [&table.rows[..34], &[255, 0], &table.rows[36..]].concat();
    vec![
        (set[..39].to_vec(), Some("part of a set")),
        (set, Some("a keyword set")),
        (old_record(b"X", 7), Some("a keyword set")),
        ((0..10).flat_map(|i| old_record(&[i], 1)).collect(), Some("a keyword set")),
        (old[..35].to_vec(), Some("part of an old set")),
        ([&old[..], &old[..18]].concat(), Some("an old set that repeats a keyword")),
        (old, Some("a keyword set")),
        (table.rows[..20].to_vec(), Some("part of a table")),
        (table.rows, Some("a row file")),
        (damaged, Some("a row file")),
        (table.bytes, Some("a byte file")),
        (vec![0; 4096], Some("a byte file")),
        (vec![], None),
        (BENCH_TRACE.to_vec(), Some("a trace")),
        (vec![b'L'; 4096], Some("a trace")),
        (b"\"L\",1\n\"M\",2\n\"N\",3".to_vec(), Some("a csv of 18 bytes")),
        (b"\"L\",1\n\"M\",2\n\"N\",345".to_vec(), Some("a csv of 20 bytes")),
    ]
}

/// Only a file of the kind that a command writes, or an empty one, is replaced without force. An old set is a set.
#[test]
fn kinds_that_are_replaced() {
    let folder = bench("kinds_that_are_replaced");
    let new = bench_table();
    folder.write("old.bin", &old_bench_set());
    let commands: [(&str, &str, &[u8]); 4] = [
        ("set w.csv there.bin", "a keyword set", &bench_set()),
        ("convert old.bin there.bin", "a keyword set", &bench_set()),
        ("tables w.bin there.bin n.bin", "a row file", &new.rows),
        ("tables w.bin n.bin there.bin", "a byte file", &new.bytes),
    ];
    for (bytes, holds) in there() {
        for (command, written, new) in commands {
            folder.write("there.bin", &bytes);
            if holds.is_some_and(|kind| kind != written) {
                let before = folder.listed();
                let told = format!("there.bin: is not {written}, and is not replaced; --force replaces it\n");
                assert_eq!(folder.fails(2, command), told, "{holds:?}");
                assert_eq!(folder.listed(), before);
                folder.done(&format!("{command} --force"));
            } else {
                folder.done(command);
            }
            assert_eq!(folder.read("there.bin"), new, "{command} over {holds:?}");
            let _ = fs::remove_file(folder.0.join("n.bin"));
        }
    }
}

/// A file without an end is no set, no table and no csv, and is told so at once.
#[test]
fn files_that_are_too_long() {
    let folder = Folder::bench("files_that_are_too_long");
    let told = |name: &str| format!("{name}: the file is longer than 16 MiB, and no set, table or csv is\n");
    let commands = [
        "set /dev/zero n.bin",
        "convert /dev/zero n.bin",
        "tables /dev/zero n.bin b.bin",
        "check /dev/zero rows.bin bytes.bin",
        "check w.bin /dev/zero bytes.bin",
        "check w.bin rows.bin /dev/zero",
        "scan /dev/zero t.bin",
        "scan w.bin t.bin --backward /dev/zero bytes.bin",
        "scan w.bin t.bin --backward rows.bin /dev/zero",
        "compare /dev/zero t.bin t.bin",
    ];
    for command in commands {
        assert_eq!(folder.fails(2, command), told("/dev/zero"), "{command}");
    }
    assert!(!folder.holds("n.bin") && !folder.holds("b.bin"));
    // a trace has its own limit, and a file of exactly 16 MiB is read
    assert!(folder.fails(1, "scan w.bin /dev/zero").starts_with("/dev/zero: refusal 8 place 0: "));
    folder.write("long.bin", &vec![0; 16 << 20]);
    assert!(folder
        .fails(1, "scan long.bin t.bin")
        .starts_with("long.bin: refusal 2 place 0: the set has 16777216 bytes, "));
    folder.write("long.bin", &vec![0; (16 << 20) + 1]);
    assert_eq!(folder.fails(2, "scan long.bin t.bin"), told("long.bin"));
}

/// The size of a file that is there is not held against it, however large: no byte of it is read.
#[test]
fn long_files_that_are_replaced() {
    let folder = bench("long_files_that_are_replaced");
    let long = |size: u64| {
        File::create(folder.0.join("long.bin")).and_then(|file| file.set_len(size)).expect("a file can be made")
    };
    for size in [17_298 + 18, (16 << 20) + 1, 1 << 36] {
        long(size);
        let told = "long.bin: is not a row file, and is not replaced; --force replaces it\n";
        assert_eq!(folder.fails(2, "tables w.bin long.bin n.bin"), told);
        let left = fs::metadata(folder.0.join("long.bin")).map(|found| found.len()).ok();
        assert!(!folder.holds("n.bin") && left == Some(size));
        folder.done("tables w.bin long.bin n.bin --force");
        assert_eq!(folder.read("long.bin"), bench_table().rows);
        long(size);
        folder.done("set --force w.csv long.bin");
        assert_eq!(folder.read("long.bin"), bench_set());
        fs::remove_file(folder.0.join("n.bin")).expect("the file is there");
    }
}

#[test]
fn files_that_are_missing() {
    let folder = bench("files_that_are_missing");
    let reads = [
        "set none w.bin",
        "convert none w.bin",
        "convert none none",
        "tables none r.bin b.bin",
        "check none rows.bin bytes.bin",
        "check w.bin none bytes.bin",
        "check w.bin rows.bin none",
        "scan none t.bin",
        "scan w.bin none",
        "scan w.bin t.bin --backward none bytes.bin",
        "scan w.bin t.bin --backward rows.bin none",
        "compare none t.bin t.bin",
        "compare w.bin none t.bin",
        "compare w.bin t.bin none",
    ];
    for arguments in reads {
        let told = folder.fails(2, arguments);
        assert!(told.starts_with("none: cannot be read: ") && told.lines().count() == 1, "{arguments}: {told}");
    }
    folder.write("old.bin", &old_bench_set());
    let before = folder.listed();
    for arguments in [
        "set w.csv none/file",
        "convert old.bin none/file",
        "tables w.bin none/file b.bin",
        "tables w.bin r.bin none/file",
    ] {
        let told = folder.fails(2, arguments);
        assert!(told.starts_with("none/file: cannot be written: ") && told.lines().count() == 1, "{arguments}: {told}");
    }
    assert_eq!(folder.listed(), before);
    // a folder is no file
    assert!(folder.fails(2, "scan w.bin .").starts_with(".: cannot be read: "));
}

/// What a link points to is written, and the link stays.
#[test]
fn links() {
    let folder = bench("links");
    inner(&folder, "in");
    link(&folder, "in/made.bin", "dangling.bin");
    link(&folder, "dangling.bin", "chain.bin");
    link(&folder, "../old.bin", "in/back.bin");
    folder.write("old.bin", &record(b"X", 1));
    folder.done("set w.csv chain.bin");
    folder.done("set w.csv in/back.bin");
    for name in ["in/made.bin", "old.bin", "chain.bin", "in/back.bin"] {
        assert_eq!(folder.read(name), bench_set());
    }
    for (name, to) in [("dangling.bin", "in/made.bin"), ("chain.bin", "dangling.bin"), ("in/back.bin", "../old.bin")] {
        assert_eq!(fs::read_link(folder.0.join(name)).ok().as_deref(), Some(to.as_ref()));
    }
    // a file that is not of the kind is told under the name that was given
    folder.write("old.bin", BENCH_TRACE);
    let told = "in/back.bin: is not a keyword set, and is not replaced; --force replaces it\n";
    assert_eq!(folder.fails(2, "set w.csv in/back.bin"), told);
}

/// A file that is replaced keeps its permissions and its owner; a new one has those of any new file.
#[test]
fn permissions() {
    let folder = bench("permissions");
    for kept in [0o600, 0o640, 0o666, 0o755] {
        for name in ["w.bin", "rows.bin", "bytes.bin"] {
            set_mode(&folder, name, kept);
        }
        folder.done("set w.csv w.bin");
        folder.done("tables w.bin rows.bin bytes.bin");
        assert_eq!(["w.bin", "rows.bin", "bytes.bin"].map(|name| mode(&folder, name)), [kept; 3]);
    }
    for (umask, new) in [("000", 0o666), ("022", 0o644), ("027", 0o640), ("077", 0o600)] {
        let line = format!("umask {umask} && exec \"$0\" set w.csv n.bin");
        let ran = Command::new("sh").args(["-c", &line, env!("CARGO_BIN_EXE_bezowik")]).current_dir(&folder.0).output();
        assert!(ran.expect("a shell runs").status.success());
        assert_eq!(mode(&folder, "n.bin"), new, "umask {umask}");
        fs::remove_file(folder.0.join("n.bin")).expect("the file is there");
    }
    // only root can give a file away
    if chown(folder.0.join("w.bin"), Some(1234), Some(2345)).is_ok() {
        folder.done("set w.csv w.bin");
        let found = fs::metadata(folder.0.join("w.bin")).expect("the file is there");
        assert_eq!((found.uid(), found.gid(), found.mode() & 0o7777), (1234, 2345, 0o755));
    }
}

/// A file that may not be written is not replaced, nor is one in a folder in which none can be made. Root may do both,
/// and has another user run the tool.
#[test]
fn protected_files() {
    let folder = bench("protected_files");
    inner(&folder, "in");
    folder.write("in/n.bin", &record(b"X", 1));
    let run = |arguments: &str| run_confined(&folder, arguments);
    drop(confined(&folder, ""));
    set_mode(&folder, "w.bin", 0o444);
    set_mode(&folder, "in", 0o555);
    set_mode(&folder, "in/n.bin", 0o666);
    let before = folder.listed();
    for command in ["set w.csv w.bin", "set w.csv w.bin --force", "set w.csv in/new.bin", "set w.csv in/n.bin"] {
        let name = command.split(' ').nth(2).expect("a name");
        let told = format!("{name}: cannot be written: Permission denied (os error 13)\n");
        assert_eq!(run(command), (Some(2), vec![], told), "{command}");
    }
    assert_eq!(folder.listed(), before);
    // a file that cannot be of the kind is not read to tell; what cannot be read can be replaced by force
    for name in ["w.bin", "rows.bin"] {
        set_mode(&folder, name, 0o222);
    }
    let told = "rows.bin: is not a byte file, and is not replaced; --force replaces it\n";
    folder.write("set.bin", &bench_set());
    assert_eq!(run("tables set.bin n.bin rows.bin"), (Some(2), vec![], told.to_string()));
    let told = "w.bin: cannot be read, to see whether it is a keyword set: Permission denied (os error 13); \
--force replaces it\n";
    assert_eq!(run("set w.csv w.bin"), (Some(2), vec![], told.to_string()));
    assert_eq!(run("set w.csv w.bin --force").0, Some(0));
    assert_eq!(mode(&folder, "w.bin"), 0o222);
    // for whoever runs this test and is not root
    set_mode(&folder, "w.bin", 0o644);
    assert_eq!(folder.read("w.bin"), bench_set());
    set_mode(&folder, "in", 0o755);
}

/// The name `-` is standard input for each file that is read, once in a command.
#[test]
fn standard_input() {
    let folder = bench("standard_input");
    let table = bench_table();
    let cases: [(&str, &[u8]); 10] = [
        ("set - n.bin", BENCH_CSV),
        ("convert - c.bin", &old_bench_set()),
        ("tables - r.bin b.bin", &bench_set()),
        ("check - rows.bin bytes.bin", &bench_set()),
        ("check w.bin - bytes.bin", &table.rows),
        ("check w.bin rows.bin -", &table.bytes),
        ("scan - t.bin", &bench_set()),
        ("scan w.bin -", BENCH_TRACE),
        ("scan w.bin t.bin --backward - bytes.bin", &table.rows),
        ("compare w.bin - t.bin", BENCH_TRACE),
    ];
    for (arguments, input) in cases {
        let (status, _, told) = folder.fed(arguments, input);
        assert_eq!((status, told.as_str()), (Some(0), ""), "{arguments}");
    }
    assert_eq!(folder.read("c.bin"), bench_set());
    assert_eq!(
        (folder.read("n.bin"), folder.read("r.bin"), folder.read("b.bin")),
        (bench_set(), table.rows, table.bytes)
    );
    assert!(folder
        .fed("set - n.bin", b"wrong")
        .2
        .starts_with("standard input line 1: the first row `wrong` is neither "));
    assert!(folder.fed("scan - t.bin", b"").2.starts_with("standard input: refusal 1 place 0: "));
    let long = folder.fed("tables - r.bin b.bin", &vec![0; (16 << 20) + 1]);
    assert_eq!(long.2, "standard input: the file is longer than 16 MiB, and no set, table or csv is\n");
    for arguments in [
        "check - - bytes.bin",
        "check w.bin - -",
        "scan - -",
        "scan w.bin - --backward rows.bin -",
        "compare w.bin - -",
    ] {
        let (status, _, told) = folder.fed(arguments, b"");
        assert_eq!((status, first(&told)), (Some(2), "standard input can be read only once"), "{arguments}");
    }
    // a file of that name has another
    folder.write("-", BENCH_CSV);
    folder.done("set ./- n.bin");
}

/// The name `-` is standard output where one file is written, and then nothing else is printed there.
#[test]
fn standard_output() {
    let folder = bench("standard_output");
    let old = &old_bench_set()[..];
    folder.write("old.bin", old);
    let before = folder.listed();
    let (written, converted) = ("3 keywords written\n\nno  line  bytes ", "3 old records converted\n\nno  bytes ");
    for (arguments, input, says) in [
        ("set w.csv -", &b""[..], written),
        ("set - -", BENCH_CSV, written),
        ("convert old.bin -", b"", converted),
        ("convert - -", old, converted),
    ] {
        let (status, out, told) = folder.fed(arguments, input);
        assert_eq!((status, out), (Some(0), bench_set()), "{arguments}");
        assert!(told.starts_with(says), "{told}");
    }
    for arguments in ["tables w.bin - b.bin", "tables w.bin r.bin -", "tables w.bin - -"] {
        let (status, out, told) = folder.fed(arguments, b"");
        let sentence = "two files are written, so that neither can be standard output";
        assert_eq!((status, out, first(&told)), (Some(2), vec![], sentence));
    }
    let full = File::options().write(true).open("/dev/full").expect("the device is there");
    let (status, _, told) = ended(folder.tool(&["set", "w.csv", "-"]).stdout(full).output().expect("the tool runs"));
    assert_eq!(
        (status, told.as_str()),
        (Some(2), "standard output: cannot be written: No space left on device (os error 28)\n")
    );
    assert_eq!(folder.listed(), before);
}

/// A reader of standard output that goes away has no whole file, and is told so.
#[test]
fn a_reader_of_a_file_that_goes_away() {
    let folder = bench("a_reader_of_a_file_that_goes_away");
    let mut command = folder.tool(&["set", "-", "-"]);
    let mut running =
        command.stdin(Stdio::piped()).stdout(Stdio::piped()).stderr(Stdio::piped()).spawn().expect("the tool runs");
    drop(running.stdout.take());
    running.stdin.take().expect("a pipe").write_all(BENCH_CSV).expect("the tool reads");
    let (status, _, told) = ended(running.wait_with_output().expect("the tool ends"));
    assert_eq!((status, told.as_str()), (Some(2), "standard output: cannot be written: Broken pipe (os error 32)\n"));
}

/// Devices and pipes are written directly, and before any file is replaced.
#[test]
fn streams() {
    let folder = bench("streams");
    assert_eq!(run_confined(&folder, "tables w.bin /dev/null b.bin").0, Some(0));
    assert_eq!(folder.read("b.bin"), bench_table().bytes);
    // what /dev/stdout is
    link(&folder, "/proc/self/fd/1", "out");
    let (status, out, told) = ended(folder.tool(&["set", "w.csv", "out"]).output().expect("the tool runs"));
    assert!((status, told.as_str()) == (Some(0), "") && out.starts_with(&bench_set()), "{told}");
    let made = Command::new("mkfifo").args(["-m", "666"]).arg(folder.0.join("pipe")).status().expect("mkfifo runs");
    assert!(made.success());
    let mut reader = Command::new("cat").arg(folder.0.join("pipe")).stdout(Stdio::piped()).spawn().expect("cat runs");
    let (status, _, told) = run_confined(&folder, "tables w.bin pipe b.bin");
    if status != Some(0) {
        // nobody will ever write
        reader.kill().expect("cat runs");
    }
    let rows = reader.wait_with_output().expect("cat ends").stdout;
    assert_eq!((status, told.as_str(), rows), (Some(0), "", bench_table().rows));
    let full = "/dev/full: cannot be written: No space left on device (os error 28)";
    assert_eq!(run_confined(&folder, "set w.csv /dev/full"), (Some(2), vec![], format!("{full}\n")));
    let told = format!("{full}; already written: /dev/null\n");
    assert_eq!(run_confined(&folder, "tables w.bin /dev/null /dev/full"), (Some(2), vec![], told));
}

/// An open file that has no name any more is written, and no file is made of what the system calls it.
#[test]
fn a_file_without_a_name() {
    let folder = bench("a_file_without_a_name");
    let path = folder.0.join("gone.bin");
    let mut file = File::options().read(true).write(true).create_new(true).open(&path).expect("a file can be made");
    fs::remove_file(&path).expect("the file is there");
    // what /dev/stderr is
    link(&folder, "/proc/self/fd/2", "messages");
    let files = || fs::read_dir(&folder.0).expect("the folder is there").count();
    let before = files();
    let messages = file.try_clone().expect("the file is open");
    assert!(folder
        .tool(&["set", "w.csv", "messages"])
        .stderr(messages)
        .output()
        .expect("the tool runs")
        .status
        .success());
    assert_eq!(files(), before);
    let mut bytes = Vec::new();
    file.rewind().and_then(|()| file.read_to_end(&mut bytes)).expect("the file can be read");
    assert_eq!(bytes, bench_set());
}

/// A name as long as a name can be, and names that are no text.
#[test]
fn unusual_names() {
    let folder = bench("unusual_names");
    for name in ["n".repeat(255), "\u{1f50b}".repeat(63), ".hidden".to_string(), "a b\n".to_string()] {
        let done = folder.tool(&["set", "w.csv", &name]).output().expect("the tool runs");
        assert!(done.status.success(), "{name}");
        assert_eq!(folder.read(&name), bench_set());
    }
    assert_eq!(folder.listed().len(), 9);
}

/// No character of a name steers the terminal that a message is shown on.
#[test]
fn control_characters() {
    let folder = bench("control_characters");
    let (name, shown) = (
        "a\x1b[31m\r\nb\u{9b}c\u{202e}d\u{2066}e\u{e9}\x7f",
        "a\\x1b[31m\\x0d\\x0ab\\u{9b}c\\u{202e}d\\u{2066}e\u{e9}\\x7f",
    );
    let told = |arguments: &[&str]| ended(folder.tool(arguments).output().expect("the tool runs")).2;
    assert_eq!(
        told(&["set", name, "n.bin"]),
        format!("{shown}: cannot be read: No such file or directory (os error 2)\n")
    );
    let in_none = format!("none/{name}");
    assert!(told(&["set", "w.csv", &in_none]).starts_with(&format!("none/{shown}: cannot be written: ")));
    assert_eq!(first(&told(&["set", name, name])), format!("{shown} and {shown} are the same file"));
    folder.write(name, BENCH_TRACE);
    assert_eq!(
        told(&["set", "w.csv", name]),
        format!("{shown}: is not a keyword set, and is not replaced; --force replaces it\n")
    );
    folder.write(name, b"wrong");
    assert!(told(&["set", name, "n.bin"]).starts_with(&format!("{shown} line 1: ")));
}
