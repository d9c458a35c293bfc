//! Files read, and names that are one file. A failure names the file.

use crate::old;
use crate::text::shown_name;
use crate::{misuse, Failure, Notes};
use bezowik::{Table, TRACE};
use std::fs::{self, File};
use std::io::{self, ErrorKind, Read};
use std::os::unix::fs::MetadataExt;
use std::path::{Path, PathBuf};

/// The longest file that is read as a set, a table or a csv. The longest table has 17,298 bytes; a csv may have long
/// notes.
const MOST: u64 = 16 << 20;

/// The links that are followed to the file that a name stands for, which are as many as the system follows.
const LINKS: usize = 40;

/// What messages call the file that is read under the name `-`.
const STANDARD_INPUT: &str = "standard input";

/// A file as it was read.
pub struct Input {
    pub name: PathBuf,
    pub bytes: Vec<u8>,
}

/// The two files of a skip table as they were read.
pub struct Tables {
    pub row_name: PathBuf,
    pub byte_name: PathBuf,
    pub table: Table,
}

/// A set, a table or a csv, whole.
pub fn read(name: &Path) -> Result<Input, Failure> {
    let input = beginning(name, MOST + 1)?;
    match input.bytes.len() as u64 > MOST {
        true => Err(Failure::File(format!(
            "{}: the file is longer than 16 MiB, and no set, table or csv is",
            shown_name(&input.name)
        ))),
        false => Ok(input),
    }
}

/// What is or may be a keyword set, whole. Where it may be an old set, that is noted.
pub fn read_set(name: &Path, notes: &mut Notes) -> Result<Input, Failure> {
    let set = read(name)?;
    notes.extend(old::suggested(name, &set));
    Ok(set)
}

/// A trace, up to the first byte that is too many: the library then refuses it, and a file of any length is no burden.
pub fn read_trace(name: &Path) -> Result<Input, Failure> {
    beginning(name, TRACE as u64 + 1)
}

/// The two files of a skip table.
pub fn read_tables(rows: &Path, bytes: &Path) -> Result<Tables, Failure> {
    let (rows, bytes) = (read(rows)?, read(bytes)?);
    Ok(Tables { row_name: rows.name, byte_name: bytes.name, table: Table { rows: rows.bytes, bytes: bytes.bytes } })
}

/// Whether a name is that of standard input or output, and of no file.
pub fn is_standard(name: &Path) -> bool {
    name.as_os_str() == "-"
}

/// The first bytes of a file, or of standard input, at most so many.
fn beginning(name: &Path, most: u64) -> Result<Input, Failure> {
    let mut bytes = Vec::new();
    let (name, read) = match is_standard(name) {
        true => (Path::new(STANDARD_INPUT), io::stdin().lock().take(most).read_to_end(&mut bytes)),
        false => (name, File::open(name).and_then(|file| file.take(most).read_to_end(&mut bytes))),
    };
    match read {
        Ok(_) => Ok(Input { name: name.to_path_buf(), bytes }),
        Err(error) => Err(Failure::File(format!("{}: cannot be read: {error}", shown_name(name)))),
    }
}

/// Refuses an output that is also an input or another output: a command would destroy what it reads, or what it has
/// just written. Two inputs may be one file, but standard input can be read only once.
pub fn distinct(inputs: &[&Path], outputs: &[&Path]) -> Result<(), Failure> {
    let twice = |names: &[&Path]| names.iter().filter(|name| is_standard(name)).count() > 1;
    if twice(inputs) {
        return Err(misuse("standard input can be read only once"));
    }
    if twice(outputs) {
        return Err(misuse("standard output can be written only once"));
    }
    for (i, one) in outputs.iter().enumerate() {
        let mut others = inputs.iter().chain(&outputs[..i]).filter(|other| !is_standard(other) && !is_standard(one));
        if let Some(other) = others.find(|other| same(one, other)) {
            return Err(misuse(&format!("{} and {} are the same file", shown_name(other), shown_name(one))));
        }
    }
    Ok(())
}

/// Whether two names are one file, be it there or still to be made.
pub fn same(one: &Path, other: &Path) -> bool {
    match (fs::metadata(one), fs::metadata(other)) {
        (Ok(a), Ok(b)) => (a.dev(), a.ino()) == (b.dev(), b.ino()),
        (Err(_), Err(_)) => one == other || matches!((place(one), place(other)), (Ok(a), Ok(b)) if a == b),
        _ => false,
    }
}

/// Where a file is or would be made: its folder, and its name in it, with links followed.
pub fn place(name: &Path) -> io::Result<PathBuf> {
    let mut place = Path::new(".").join(name);
    for _ in 0..LINKS {
        let Ok(target) = place.read_link() else { break };
        place = place.parent().unwrap_or(Path::new("/")).join(target);
    }
    let (Some(folder), Some(file)) = (place.parent(), place.file_name()) else {
        return Err(ErrorKind::NotFound.into());
    };
    // a name with a slash behind it is that of a folder
    match place.as_os_str().as_encoded_bytes().ends_with(file.as_encoded_bytes()) {
        true => Ok(folder.canonicalize()?.join(file)),
        false => Err(ErrorKind::IsADirectory.into()),
    }
}
