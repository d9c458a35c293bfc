//! The tool stopped at each of its system calls, and on a disk that fails: each file is the old one or the new one,
//! never half of one.

#[path = "../../tests/common/mod.rs"]
mod common;
mod folder;

use bezowik::sets::record;
use common::{bench_set, BENCH_TRACE};
use folder::{bench_table, old_bench_set, Folder};
use std::collections::{BTreeMap, BTreeSet};
use std::ffi::OsString;
use std::os::unix::process::ExitStatusExt;
use std::process::{Command, Output};

const KILLED: Option<i32> = Some(9);

/// The most calls of one name that the tool makes. A test that would count on for ever ends here.
const MOST: usize = 1000;

/// A file that a command writes, and what is there before and after.
struct Written {
    name: &'static str,
    old: Option<Vec<u8>>,
    new: Vec<u8>,
}

/// A command, and the folder that it runs in.
struct Job {
    folder: Folder,
    arguments: &'static str,
    files: Vec<Written>,
    others: Vec<(OsString, Option<Vec<u8>>)>,
}

impl Job {
    /// A command in a folder that holds what it reads, and files that it must leave alone.
    fn new(test: &str, arguments: &'static str, files: Vec<Written>) -> Job {
        let folder = Folder::new(test);
        folder.write("w.csv", b"text,energy\nLM,40\nALM,55\nLMLA,90\n");
        folder.write("w.bin", &bench_set());
        folder.write("w-old.bin", &old_bench_set());
        folder.write("t.bin", BENCH_TRACE);
        let others = folder.listed();
        Job { folder, arguments, files, others }
    }

    /// The command `set`, with another set in its place or none.
    fn set(test: &str, there: bool) -> Job {
        let old = there.then(|| record(b"X", 1));
        Job::new(test, "set w.csv set.bin", vec![Written { name: "set.bin", old, new: bench_set() }])
    }

    /// The command `convert`, with the old set in its place or none.
    fn convert(test: &str, there: bool) -> Job {
        let arguments = if there { "convert set.bin set.bin" } else { "convert w-old.bin set.bin" };
        let old = there.then(old_bench_set);
        Job::new(test, arguments, vec![Written { name: "set.bin", old, new: bench_set() }])
    }

    /// The command `tables`, with other tables in their places or none.
    fn tables(test: &str, there: bool) -> Job {
        let old = bezowik::make(&record(b"X", 1)).expect("the set passes");
        let new = bench_table();
        let rows = Written { name: "rows.bin", old: there.then_some(old.rows), new: new.rows };
        let bytes = Written { name: "bytes.bin", old: there.then_some(old.bytes), new: new.bytes };
        Job::new(test, "tables w.bin rows.bin bytes.bin", vec![rows, bytes])
    }

    /// The files as they are before the command.
    fn begin_again(&self) {
        for file in &self.files {
            let _ = std::fs::remove_file(self.folder.0.join(file.name));
            if let Some(old) = &file.old {
                self.folder.write(file.name, old);
            }
        }
    }

    /// The command run from the beginning under strace, with options of it.
    fn run(&self, options: &[&str]) -> Output {
        self.begin_again();
        let mut command = Command::new("strace");
        command.args(["-f", "-qq"]).args(options).arg(env!("CARGO_BIN_EXE_bezowik")).args(self.arguments.split(' '));
        // cargo names folders of libraries, in which the tool has none and would search
        command.current_dir(&self.folder.0).env_remove("LD_LIBRARY_PATH");
        command.output().unwrap_or_else(|error| panic!("strace does not run ({error}): ./needs installs it"))
    }

    /// The command run with something done to it at a call of the system.
    fn disturbed(&self, injected: &str) -> Output {
        self.run(&["-o", "/dev/null", "-e", &format!("inject={injected}")])
    }

    /// The names of the system calls that the command makes.
    fn calls(&self) -> BTreeSet<String> {
        let list = self.folder.0.join(".calls");
        let ran = self.run(&["-o", ".calls"]);
        assert!(ran.status.success(), "{}", String::from_utf8_lossy(&ran.stderr));
        let text = std::fs::read_to_string(&list).expect("strace lists the calls");
        std::fs::remove_file(&list).expect("the list is there");
        let name =
            |line: &str| line.split_once('(').and_then(|(name, _)| name.split_whitespace().last()).map(String::from);
        text.lines().filter(|line| !line.contains("resumed>")).filter_map(name).collect()
    }

    /// Which files are the new ones, where each is the old one or the new one, and every other is as it was.
    fn state(&self, when: &str) -> Vec<bool> {
        let mut state = Vec::new();
        for file in &self.files {
            let found = std::fs::read(self.folder.0.join(file.name)).ok();
            let new = found.as_ref() == Some(&file.new);
            assert!(new || found == file.old, "{}, {when}: {} is neither old nor new", self.arguments, file.name);
            state.push(new);
        }
        let written = |name: &OsString| self.files.iter().any(|file| file.name == name);
        let others: Vec<_> = self.folder.listed().into_iter().filter(|(name, _)| !written(name)).collect();
        assert_eq!(others, self.others, "{}, {when}", self.arguments);
        state
    }

    /// Takes away what a stop has left: files whose names begin with a dot and tell what they were to be.
    fn clear(&self) -> usize {
        let mut cleared = 0;
        for (name, _) in self.folder.listed() {
            let name = name.into_string().expect("a name that is text");
            if name.starts_with('.') {
                let of = |file: &Written| name.starts_with(&format!(".{}.", file.name)) && name.ends_with(".new");
                assert!(self.files.iter().any(of), "{name}");
                std::fs::remove_file(self.folder.0.join(name)).expect("the file is there");
                cleared += 1;
            }
        }
        cleared
    }

    /// Stops the command at each system call, and counts the stops in each state. What is expected are all states that
    /// can be.
    fn stop_everywhere(&self, expected: &[&[bool]]) {
        let (mut stops, mut left) = (BTreeMap::new(), 0);
        for call in self.calls() {
            let killed = |n: &usize| {
                let when = format!("{call}:signal=KILL:when={n}");
                let ran = self.disturbed(&when);
                left += self.clear();
                let state = self.state(&when);
                if ran.status.signal() != KILLED {
                    assert!(
                        ran.status.success() && state.iter().all(|&new| new),
                        "{when}: {}",
                        String::from_utf8_lossy(&ran.stderr)
                    );
                    return false;
                }
                *stops.entry(state).or_insert(0) += 1;
                true
            };
            assert_ne!((1..=MOST).take_while(killed).count(), MOST, "{call}");
        }
        println!("{}: stops by which files are new: {stops:?}; files left beside: {left}", self.arguments);
        assert!(stops.keys().eq(expected), "{stops:?}");
        assert!(left > 0);
    }

    /// Has a system call fail, and holds what the tool says against what it must say, and which files are new against
    /// those that must be. No file is left beside them.
    fn fails_at(&self, injected: &str, told: &str, state: &[bool]) {
        let ran = self.disturbed(injected);
        let status = if told.is_empty() { 0 } else { 2 };
        let says = if told.is_empty() { String::new() } else { format!("{told}\n") };
        assert_eq!(
            (ran.status.code(), String::from_utf8_lossy(&ran.stderr).as_ref()),
            (Some(status), says.as_str()),
            "{injected}"
        );
        assert_eq!(self.state(injected), state, "{injected}");
    }
}

#[test]
fn set_stopped() {
    Job::set("set_stopped", true).stop_everywhere(&[&[false], &[true]]);
}

#[test]
fn first_set_stopped() {
    Job::set("first_set_stopped", false).stop_everywhere(&[&[false], &[true]]);
}

#[test]
fn convert_stopped() {
    Job::convert("convert_stopped", true).stop_everywhere(&[&[false], &[true]]);
}

#[test]
fn first_convert_stopped() {
    Job::convert("first_convert_stopped", false).stop_everywhere(&[&[false], &[true]]);
}

#[test]
fn tables_stopped() {
    Job::tables("tables_stopped", true).stop_everywhere(&[&[false, false], &[true, false], &[true, true]]);
}

#[test]
fn first_tables_stopped() {
    Job::tables("first_tables_stopped", false).stop_everywhere(&[&[false, false], &[true, false], &[true, true]]);
}

#[test]
fn set_and_convert_on_a_failing_disk() {
    let jobs = [
        Job::set("set_on_a_failing_disk", true),
        Job::set("first_set_on_a_failing_disk", false),
        Job::convert("convert_on_a_failing_disk", true),
        Job::convert("first_convert_on_a_failing_disk", false),
    ];
    for job in jobs {
        let full = "cannot be written: No space left on device (os error 28)";
        job.fails_at("write:error=ENOSPC:when=1", &format!("set.bin: {full}"), &[false]);
        job.fails_at("write:error=ENOSPC:when=2", &format!("standard output: {full}"), &[true]);
        job.fails_at("fsync:error=EIO:when=1", "set.bin: cannot be written: Input/output error (os error 5)", &[false]);
        // the folder's
        job.fails_at("fsync:error=EIO:when=2", "", &[true]);
        job.fails_at(
            "/^rename:error=EACCES:when=1",
            "set.bin: cannot be written: Permission denied (os error 13)",
            &[false],
        );
    }
}

#[test]
fn tables_on_a_failing_disk() {
    for (test, there) in [("tables_on_a_failing_disk", true), ("first_tables_on_a_failing_disk", false)] {
        let job = Job::tables(test, there);
        let full = "cannot be written: No space left on device (os error 28)";
        job.fails_at("write:error=ENOSPC:when=1", &format!("rows.bin: {full}"), &[false, false]);
        job.fails_at("write:error=ENOSPC:when=2", &format!("bytes.bin: {full}"), &[false, false]);
        job.fails_at("write:error=ENOSPC:when=3", &format!("standard output: {full}"), &[true, true]);
        let broken = "cannot be written: Input/output error (os error 5)";
        job.fails_at("fsync:error=EIO:when=1", &format!("rows.bin: {broken}"), &[false, false]);
        job.fails_at("fsync:error=EIO:when=2", &format!("bytes.bin: {broken}"), &[false, false]);
        // the folder's
        job.fails_at("fsync:error=EIO:when=3", "", &[true, true]);
        let denied = "cannot be written: Permission denied (os error 13)";
        job.fails_at("/^rename:error=EACCES:when=1", &format!("rows.bin: {denied}"), &[false, false]);
        job.fails_at(
            "/^rename:error=EACCES:when=2",
            &format!("bytes.bin: {denied}; already written: rows.bin"),
            &[true, false],
        );
    }
}

/// A disk that stays full: the message cannot be written either, and the status tells.
#[test]
fn a_disk_that_stays_full() {
    let convert = Job::convert("convert_that_stays", true);
    for job in [Job::set("set_that_stays", true), convert, Job::tables("tables_that_stay", true)] {
        let ran = job.disturbed("write:error=ENOSPC");
        assert_eq!(ran.status.code(), Some(2));
        assert!(job.state("a full disk").iter().all(|&new| !new));
    }
}
