//! The commands and their options, as people type them.

use clap::{Args, Parser, Subcommand, ValueEnum};
use clap_complete::Shell;
use std::path::PathBuf;

/// What `--help` says at its end.
const STATUS: &str = "\
A file name of - is standard input, or standard output where one file is written.

Exit status: 0 done; 1 a refusal, a table that is not safe, a wrong line of a csv, a suffix that is
no row, or a file that needs no conversion; 2 bad usage, or a file that cannot be read or written;
4 `compare --fail-over` found a build that draws too much.";

/// What `bezowik set --help` says at its end.
const CSV: &str = "\
A csv as a spreadsheet exports it: comma, semicolon or tab, quotes as in any csv. A first row names
the columns: `hex` or `text`, and `energy`, in any order; other columns are passed over. Without
such a row the first column is hex, or text with --text, and the second the energy.

    text,energy,note          hex,energy              4c 4d,40
    LM,40,load to memory      4c 4d,40                41 4c 4d,55
    ALM,55,                   41 4c 4d,55

Hex is pairs of digits, with spaces between or without. In a spreadsheet write the spaces: 0010
typed as a number becomes 10. Text is printable ASCII. An energy is a whole number of picojoules,
0 to 4294967295. Every wrong line is told, and nothing is written unless all are right. What was
taken is listed, in bytes and in text.";

/// What `bezowik convert --help` says at its end.
const OLD_SETS: &str = "\
An old set has records of 18 bytes, two of which are the energy. The other commands take records of
20 bytes, in which the energy has four. Keywords, energies and their order stay the same, and so do
the skip tables of the set: row files and byte files need no conversion.

    bezowik convert set.bin new.bin      the old set stays
    bezowik convert set.bin set.bin      the new set takes its place

The size of the old set is tested, its number of records, and in each the length of the keyword, the
zeros behind it, and that no record before has it. The first record that is wrong is told by its
number, from 0, and then nothing is written. A file of 180 bytes, or of a multiple of it, may hold
records of either size: this command takes it as an old set, and no other does.";

/// The two ways to use `bezowik explain`.
const ROW_OR_BYTE: &str = "\
bezowik explain <SET.bin> <SUFFIX>
       bezowik explain <SET.bin> --byte <BYTE>";

/// What `bezowik explain --help` says at its end.
const SUFFIXES: &str = "\
A suffix is what a row stands for: the end of a keyword. It is written in hex, or as text in quotes
that the shell leaves in place; a byte is written in the same ways.

    bezowik explain set.bin '4c 4d'      the row of the suffix 4c 4d
    bezowik explain set.bin '\"LM\"'       the same row, by its text
    bezowik explain set.bin ''           row 0, the empty suffix
    bezowik explain set.bin --byte 4c    the far numbers of the byte 4c";

/// Counts measured opcode sequences in a trace, and the energy that they draw.
#[derive(Parser)]
#[command(name = "bezowik", version, after_help = STATUS)]
pub struct Arguments {
    #[command(subcommand)]
    pub command: Command,
}

#[derive(Subcommand)]
pub enum Command {
    /// Makes a keyword set from a csv, and lists what it took
    #[command(after_help = CSV)]
    Set(Set),
    /// Makes a keyword set from an old one of 18-byte records, and lists what it took
    #[command(after_help = OLD_SETS)]
    Convert(Convert),
    /// Makes the skip tables of a set, with the largest safe numbers, or from csv, checked
    Tables(Tables),
    /// Checks skip tables: that every number is safe, or which are not
    Check(Check),
    /// Tells count, energy and questions of a trace, and the part of each keyword
    Scan(Scan),
    /// Tells which of two or more builds draws least, and which keywords make the difference
    Compare(Compare),
    /// Prints a set or a file of a skip table as csv
    Show(Show),
    /// Tells how the largest numbers of a row or a byte are found
    #[command(override_usage = ROW_OR_BYTE, after_help = SUFFIXES)]
    Explain(Explain),
    /// Prints what makes a shell complete this tool's commands
    Completions(Completions),
}

#[derive(Args)]
pub struct Set {
    /// The csv
    #[arg(value_name = "FROM.csv")]
    pub from: PathBuf,
    /// The keyword set that is written
    #[arg(value_name = "SET.bin")]
    pub to: PathBuf,
    /// Take the first column as text, where no first row names the columns
    #[arg(long)]
    pub text: bool,
    #[command(flatten)]
    pub replacing: Replacing,
}

#[derive(Args)]
pub struct Convert {
    /// The old set
    #[arg(value_name = "OLD.bin")]
    pub old: PathBuf,
    /// The keyword set that is written, which may take the place of the old one
    #[arg(value_name = "NEW.bin")]
    pub new: PathBuf,
    #[command(flatten)]
    pub replacing: Replacing,
}

#[derive(Args)]
pub struct Replacing {
    /// Replace a file even if it holds something else than this command writes
    #[arg(long)]
    pub force: bool,
}

#[derive(Args)]
pub struct Tables {
    /// The keyword set
    #[arg(value_name = "SET.bin")]
    pub set: PathBuf,
    /// The row file that is written
    #[arg(value_name = "ROWS.bin")]
    pub rows: PathBuf,
    /// The byte file that is written
    #[arg(value_name = "BYTES.bin")]
    pub bytes: PathBuf,
    /// Take the numbers from two csvs as `bezowik show` prints them; they are written only if the check accepts them
    #[arg(long, num_args = 2, value_names = ["ROWS.csv", "BYTES.csv"])]
    pub from: Option<Vec<PathBuf>>,
    #[command(flatten)]
    pub replacing: Replacing,
}

#[derive(Args)]
pub struct Check {
    /// The keyword set
    #[arg(value_name = "SET.bin")]
    pub set: PathBuf,
    /// The row file
    #[arg(value_name = "ROWS.bin")]
    pub rows: PathBuf,
    /// The byte file
    #[arg(value_name = "BYTES.bin")]
    pub bytes: PathBuf,
    #[command(flatten)]
    pub form: Form,
    #[command(flatten)]
    pub look: Look,
}

#[derive(Args)]
pub struct Scan {
    /// The keyword set
    #[arg(value_name = "SET.bin")]
    pub set: PathBuf,
    /// The trace: one byte for each opcode executed
    #[arg(value_name = "TRACE.bin")]
    pub trace: PathBuf,
    /// Scan backward under these skip tables
    #[arg(long, num_args = 2, value_names = ["ROWS.bin", "BYTES.bin"])]
    pub backward: Option<Vec<PathBuf>>,
    /// List the first N hits too; with --csv they are printed in place of the keywords
    #[arg(long, value_name = "N", value_parser = number)]
    pub hits: Option<usize>,
    /// The order of the keywords
    #[arg(long, value_enum, default_value_t = Order::Number)]
    pub sort: Order,
    #[command(flatten)]
    pub part: Part,
    #[command(flatten)]
    pub form: Form,
    #[command(flatten)]
    pub look: Look,
}

#[derive(Args)]
pub struct Compare {
    /// The keyword set
    #[arg(value_name = "SET.bin")]
    pub set: PathBuf,
    /// The traces of the builds; the first is what the others are held against
    #[arg(value_name = "BUILD.bin", required = true, num_args = 2..)]
    pub builds: Vec<PathBuf>,
    /// End with status 4 if a build draws over so many percent more than the first
    #[arg(long, value_name = "PERCENT", value_parser = percent)]
    pub fail_over: Option<Percent>,
    /// The order of the keywords
    #[arg(long, value_enum, default_value_t = Difference::Difference)]
    pub sort: Difference,
    #[command(flatten)]
    pub part: Part,
    #[command(flatten)]
    pub form: Form,
    #[command(flatten)]
    pub look: Look,
}

#[derive(Args)]
pub struct Show {
    /// A keyword set, a row file or a byte file: what it is, is told from its bytes
    #[arg(value_name = "FILE.bin")]
    pub file: PathBuf,
}

#[derive(Args)]
pub struct Explain {
    /// The keyword set
    #[arg(value_name = "SET.bin")]
    pub set: PathBuf,
    /// The suffix of the row whose inner and edge are told
    #[arg(value_name = "SUFFIX", required_unless_present = "byte", conflicts_with = "byte")]
    pub suffix: Option<String>,
    /// Tell the far numbers of this byte, in place of a row's
    #[arg(long, value_name = "BYTE")]
    pub byte: Option<String>,
}

#[derive(Args)]
pub struct Completions {
    /// The shell
    #[arg(value_enum)]
    pub shell: Shell,
}

/// How a result is printed.
#[derive(Args)]
pub struct Form {
    /// Print the result as json
    #[arg(long, conflicts_with = "csv")]
    pub json: bool,
    /// Print the result as csv
    #[arg(long)]
    pub csv: bool,
}

/// How keywords are shown.
#[derive(Args)]
pub struct Look {
    /// Show keywords in hex alone
    #[arg(long, conflicts_with = "text")]
    pub hex: bool,
    /// Show keywords as text alone, and those that have none as hex in brackets
    #[arg(long)]
    pub text: bool,
}

/// How many keywords are shown.
#[derive(Args)]
pub struct Part {
    /// Show the first N keywords alone
    #[arg(long, value_name = "N", value_parser = number)]
    pub top: Option<usize>,
}

/// The form of a result.
pub enum Printed {
    Text,
    Json,
    Csv,
}

impl Form {
    /// The form that is asked for.
    pub fn printed(&self) -> Printed {
        match (self.json, self.csv) {
            (true, _) => Printed::Json,
            (_, true) => Printed::Csv,
            _ => Printed::Text,
        }
    }
}

impl Part {
    /// The lines that are shown of all.
    pub fn of<'a, T>(&self, all: &'a [T]) -> &'a [T] {
        &all[..self.top.unwrap_or(all.len()).min(all.len())]
    }
}

/// The order of a scan's keywords: as in the set, or the most first.
#[derive(Clone, Copy, ValueEnum)]
pub enum Order {
    Number,
    Energy,
    Occurrences,
}

/// The order of a comparison's keywords: the largest difference in energy first, the most energy in any build first, or
/// as in the set.
#[derive(Clone, Copy, ValueEnum)]
pub enum Difference {
    Difference,
    Energy,
    Number,
}

/// A number of percent, in thousandths of a percent.
#[derive(Clone, Copy, Debug, PartialEq, Eq)]
pub struct Percent(pub u64);

/// A number of things. One too large to be held is as good as any large one: all are shown.
fn number(text: &str) -> Result<usize, String> {
    match !text.is_empty() && text.bytes().all(|b| b.is_ascii_digit()) {
        true => Ok(text.parse().unwrap_or(usize::MAX)),
        false => Err("it must be a number, such as 10".to_string()),
    }
}

/// A number of percent with at most three decimals.
fn percent(text: &str) -> Result<Percent, String> {
    let (whole, decimals) = text.split_once('.').unwrap_or((text, "0"));
    let digits = |part: &str, most: usize| (1..=most).contains(&part.len()) && part.bytes().all(|b| b.is_ascii_digit());
    if !digits(whole, 12) || !digits(decimals, 3) {
        return Err("it must be a number of percent with at most three decimals, such as 5 or 2.5".to_string());
    }
    let thousandths = format!("{whole}{decimals:0<3}");
    thousandths.parse().map(Percent).map_err(|_| "it is too large".to_string())
}
