//! The commands, a file each.

pub mod check;
pub mod compare;
pub mod convert;
pub mod explain;
pub mod scan;
pub mod set;
pub mod show;
pub mod tables;

use crate::files::is_standard;
use crate::text::shown_name;
use crate::Done;
use serde_json::Value;
use std::io::{self, Write};
use std::path::Path;

/// A result as json, on lines that a person can read too.
fn print_json(value: &Value, out: &mut dyn Write) -> Done {
    Ok(writeln!(out, "{value:#}")?)
}

/// A result as csv.
fn print_csv(lines: impl IntoIterator<Item = Vec<String>>, out: &mut dyn Write) -> Done {
    let mut writer = csv::Writer::from_writer(out);
    for line in lines {
        writer.write_record(&line).map_err(crate::csv_failure)?;
    }
    Ok(writer.flush()?)
}

/// What was done for a file that is written, and a list of what is in it. Where the file goes to standard output, this
/// is told beside it, on standard error.
fn tell(file: &Path, done: &str, listed: &str, out: &mut dyn Write) -> Done {
    match is_standard(file) {
        true => write!(io::stderr(), "{done}\n\n{listed}")?,
        false => write!(out, "{}: {done}\n\n{listed}", shown_name(file))?,
    }
    Ok(())
}
