//! The tool, run on real files in a folder of its own for each test.
#![allow(dead_code)]

use crate::common::{bench_set, BENCH_TRACE};
use bezowik::Table;
use std::ffi::OsString;
use std::io::Write;
use std::path::PathBuf;
use std::process::{Command, Stdio};

/// A test's own folder, in which the tool runs. It goes when the test is over.
pub struct Folder(pub PathBuf);

impl Folder {
    /// An empty folder.
    pub fn new(test: &str) -> Folder {
        let folder = std::env::temp_dir().join(format!("bezowik-tool-{}-{test}", std::process::id()));
        std::fs::create_dir_all(&folder).expect("a folder can be made");
        Folder(folder)
    }

    /// A folder with W, its tables and T.
    pub fn bench(test: &str) -> Folder {
        let folder = Folder::new(test);
        folder.write("w.bin", &bench_set());
        folder.write("t.bin", BENCH_TRACE);
        folder.write_table(&bench_table());
        folder
    }

    /// A file put into the folder.
    pub fn write(&self, name: &str, bytes: &[u8]) {
        std::fs::write(self.0.join(name), bytes).expect("a file can be written");
    }

    /// The two files of a table put into the folder.
    pub fn write_table(&self, table: &Table) {
        self.write("rows.bin", &table.rows);
        self.write("bytes.bin", &table.bytes);
    }

    /// A file of the folder.
    pub fn read(&self, name: &str) -> Vec<u8> {
        std::fs::read(self.0.join(name)).expect("the file is there")
    }

    /// Whether the folder has a file of that name.
    pub fn holds(&self, name: &str) -> bool {
        self.0.join(name).exists()
    }

    /// The name and the bytes of every file of the folder, in the order of names.
    pub fn listed(&self) -> Vec<(OsString, Option<Vec<u8>>)> {
        let entries = std::fs::read_dir(&self.0).expect("the folder is there").map(|entry| entry.expect("an entry"));
        let mut files: Vec<_> = entries.map(|entry| (entry.file_name(), std::fs::read(entry.path()).ok())).collect();
        files.sort();
        files
    }

    /// The tool's exit status, output and messages. The arguments stand in one text, with spaces between.
    pub fn run(&self, arguments: &str) -> (i32, String, String) {
        self.run_with(&arguments.split_whitespace().collect::<Vec<_>>())
    }

    /// The same for arguments that may hold anything.
    pub fn run_with(&self, arguments: &[&str]) -> (i32, String, String) {
        let output = self.tool(arguments).output().expect("the tool runs");
        let text = |bytes: Vec<u8>| String::from_utf8(bytes).expect("the tool writes text");
        (output.status.code().expect("the tool ends by itself"), text(output.stdout), text(output.stderr))
    }

    /// The tool, fed with bytes on standard input: its exit status, output and messages.
    pub fn fed(&self, arguments: &str, bytes: &[u8]) -> (Option<i32>, Vec<u8>, String) {
        let mut command = self.tool(&arguments.split_whitespace().collect::<Vec<_>>());
        let streams = command.stdin(Stdio::piped()).stdout(Stdio::piped()).stderr(Stdio::piped());
        let mut tool = streams.spawn().expect("the tool runs");
        // a tool that does not read all of it closes the pipe
        let _ = tool.stdin.take().expect("a pipe").write_all(bytes);
        let output = tool.wait_with_output().expect("the tool ends");
        (output.status.code(), output.stdout, String::from_utf8(output.stderr).expect("the tool writes text"))
    }

    /// The tool with some arguments, in this folder.
    pub fn tool(&self, arguments: &[&str]) -> Command {
        let mut command = Command::new(env!("CARGO_BIN_EXE_bezowik"));
        command.args(arguments).current_dir(&self.0);
        command
    }

    /// What a run that must succeed prints.
    pub fn done(&self, arguments: &str) -> String {
        self.done_with(&arguments.split_whitespace().collect::<Vec<_>>())
    }

    /// The same for arguments that may hold anything.
    pub fn done_with(&self, arguments: &[&str]) -> String {
        let (status, out, told) = self.run_with(arguments);
        assert_eq!((status, told.as_str()), (0, ""), "{arguments:?}");
        out
    }

    /// What a run that must end with a status says, printing nothing.
    pub fn fails(&self, status: i32, arguments: &str) -> String {
        let (ended, out, told) = self.run(arguments);
        assert_eq!((ended, out.as_str()), (status, ""), "{arguments}: {told}");
        told
    }

    /// What a csv that must be refused is told, with no set written.
    pub fn bad_csv(&self, csv: &[u8]) -> String {
        self.write("from.csv", csv);
        let told = self.fails(1, "set from.csv set.bin");
        assert!(!self.holds("set.bin"));
        told
    }
}

impl Drop for Folder {
    fn drop(&mut self) {
        let _ = std::fs::remove_dir_all(&self.0);
    }
}

/// A keyword's record from before an energy had four bytes.
pub fn old_record(word: &[u8], energy: u16) -> Vec<u8> {
    let mut record = vec![0; 18];
    record[0] = word.len() as u8;
    record[1..1 + word.len()].copy_from_slice(word);
    record[16] = (energy % 256) as u8;
    record[17] = (energy / 256) as u8;
    record
}

/// W as an old set.
pub fn old_bench_set() -> Vec<u8> {
    [old_record(b"LM", 40), old_record(b"ALM", 55), old_record(b"LMLA", 90)].concat()
}

/// W's table with the largest numbers.
pub fn bench_table() -> Table {
    bezowik::make(&bench_set()).expect("W passes")
}
