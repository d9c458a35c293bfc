//! The tool for bench engineers. The commands stand in `jobs`; this is what they share: failures and the exit status.

pub mod arguments;
pub mod cells;
pub mod counts;
pub mod drawings;
pub mod faults;
pub mod files;
pub mod jobs;
pub mod keywords;
pub mod kinds;
pub mod old;
pub mod outputs;
pub mod records;
pub mod refusals;
pub mod searches;
pub mod sets;
pub mod tabled;
pub mod text;
pub mod written;

use arguments::{Arguments, Command};
use clap::{CommandFactory, Parser};
use std::io::{self, BufWriter, Write};
use std::process::ExitCode;

/// Why a command ended without its result.
pub enum Failure {
    /// Bad usage.
    Usage(String),
    /// A file that cannot be read or written; the message names it.
    File(String),
    /// A refusal of the library, wrong lines in a csv, a suffix that is no row, or a file that needs no conversion.
    Refused(String),
    /// A build that draws more than it may; the result has been printed.
    Over(String),
    /// The reader of the output went away, as `head` does: nobody to tell.
    Closed,
}

pub type Done = Result<(), Failure>;

/// What is said on standard error when a command has ended, however it ended.
pub type Notes = Vec<String>;

/// What a failed write to the output is: the files that the tool writes are written by `outputs::write`.
impl From<io::Error> for Failure {
    /// The failure that an error of the output is.
    fn from(error: io::Error) -> Failure {
        match error.kind() {
            io::ErrorKind::BrokenPipe => Failure::Closed,
            _ => Failure::File(format!("standard output: cannot be written: {error}")),
        }
    }
}

/// The failure that an error of a csv that is printed is.
fn csv_failure(error: csv::Error) -> Failure {
    match error.into_kind() {
        csv::ErrorKind::Io(error) => Failure::from(error),
        _ => Failure::File("standard output: a line of the csv could not be made".to_string()),
    }
}

/// Bad usage, and where good usage is told.
pub fn misuse(message: &str) -> Failure {
    Failure::Usage(format!("{message}\n`bezowik --help` tells how the tool is used"))
}

/// The whole tool, from the process's arguments to its exit status.
pub fn main() -> ExitCode {
    let arguments = match Arguments::try_parse() {
        Ok(arguments) => arguments,
        Err(error) => return told(&error),
    };
    let mut out = BufWriter::new(io::stdout().lock());
    let mut notes = Notes::new();
    let done = run(&arguments.command, &mut out, &mut notes);
    // what was printed comes before what is said of it
    let flushed = out.flush().map_err(Failure::from);
    let status = match done.and(flushed) {
        Ok(()) | Err(Failure::Closed) => ExitCode::SUCCESS,
        Err(Failure::Refused(message)) => fail(1, &message),
        Err(Failure::File(message) | Failure::Usage(message)) => fail(2, &message),
        Err(Failure::Over(message)) => fail(4, &message),
    };
    notes.iter().for_each(|note| say(&format!("note: {note}")));
    status
}

/// Help, the version, or what is wrong with the arguments, which it repeats without what a terminal would obey.
fn told(error: &clap::Error) -> ExitCode {
    let mut text = error.to_string();
    for argument in std::env::args_os().skip(1) {
        let argument = argument.to_string_lossy();
        if argument != text::plain(&argument) {
            text = text.replace(&*argument, &text::plain(&argument));
        }
    }
    let lines: Vec<String> = text.lines().map(text::plain).collect();
    let text = lines.join("\n");
    if error.use_stderr() {
        return fail(2, &text);
    }
    match writeln!(io::stdout(), "{}", text.trim_end()) {
        Err(error) if error.kind() != io::ErrorKind::BrokenPipe => {
            fail(2, &format!("standard output: cannot be written: {error}"))
        }
        _ => ExitCode::SUCCESS,
    }
}

/// The message on stderr, and the status. A message that cannot be written leaves the status.
fn fail(status: u8, message: &str) -> ExitCode {
    say(message);
    ExitCode::from(status)
}

/// A message on stderr, where it can be written.
fn say(message: &str) {
    let _ = writeln!(io::stderr(), "{}", message.trim_end());
}

/// One command.
fn run(command: &Command, out: &mut dyn Write, notes: &mut Notes) -> Done {
    match command {
        Command::Set(asked) => jobs::set::run(asked, out),
        Command::Convert(asked) => jobs::convert::run(asked, out, notes),
        Command::Tables(asked) => jobs::tables::run(asked, out, notes),
        Command::Check(asked) => jobs::check::run(asked, out, notes),
        Command::Scan(asked) => jobs::scan::run(asked, out, notes),
        Command::Compare(asked) => jobs::compare::run(asked, out, notes),
        Command::Show(asked) => jobs::show::run(asked, out, notes),
        Command::Explain(asked) => jobs::explain::run(asked, out, notes),
        Command::Completions(asked) => {
            let mut text = Vec::new();
            clap_complete::generate(asked.shell, &mut Arguments::command(), "bezowik", &mut text);
            Ok(out.write_all(&text)?)
        }
    }
}
