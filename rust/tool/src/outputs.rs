//! Files written beside their places and renamed over them: at each place is the old file or the new one, whole. A
//! failure names the file.

use crate::files::{is_standard, place, same};
use crate::kinds::{kind, Kind, LONGEST};
use crate::old;
use crate::text::shown_name;
use crate::Failure;
use std::collections::hash_map::RandomState;
use std::fs::{self, File, Metadata, OpenOptions};
use std::hash::{BuildHasher, Hasher};
use std::io::{self, ErrorKind, Read, Write};
use std::os::unix::fs::{fchown, FileTypeExt, MetadataExt};
use std::path::{Path, PathBuf};
use tempfile::TempPath;

/// The names that are tried for a file beside its place, and the letters of the output's name that stand in them: with
/// all of a long name they would be too long for the system.
const TRIES: usize = 100;
const LETTERS: usize = 48;

/// A file that a command writes: its name, which is `-` for standard output, what it holds, and its bytes.
pub struct Output<'a> {
    pub name: &'a Path,
    pub kind: Kind,
    pub bytes: &'a [u8],
}

/// The place of an ordinary file, and what is known of the file that is there.
struct Place {
    path: PathBuf,
    old: Option<Metadata>,
}

/// Files written, all or none: they are renamed over their places when the bytes of all are on the disk, and streams
/// have taken theirs. A file that is there and not of its output's kind is replaced only by force.
pub fn write(files: &[Output], force: bool) -> Result<(), Failure> {
    let places = files.iter().map(|file| tested(file, force)).collect::<Result<Vec<_>, _>>()?;
    let (mut ready, mut streams) = (Vec::new(), Vec::new());
    for (file, place) in files.iter().zip(places) {
        match place {
            Some(place) => ready.push((file.name, beside(file, &place)?, place.path)),
            None => streams.push(file),
        }
    }
    let mut written = Vec::new();
    for file in streams {
        stream(file).map_err(|error| unwritten(file.name, &error, &written))?;
        written.push(file.name);
    }
    let folders = ready.iter().filter_map(|(_, _, path)| path.parent().map(Path::to_path_buf)).collect();
    let done = rename(ready, written);
    keep_names(folders);
    done
}

/// New files renamed over their places. Where one cannot be, the failure tells what is written by then.
fn rename<'a>(ready: Vec<(&'a Path, TempPath, PathBuf)>, mut written: Vec<&'a Path>) -> Result<(), Failure> {
    for (name, new, path) in ready {
        new.persist(path).map_err(|failed| unwritten(name, &failed.error, &written))?;
        written.push(name);
    }
    Ok(())
}

/// The place of an output, none where that is a stream, after all that can be told before anything is written.
fn tested(file: &Output, force: bool) -> Result<Option<Place>, Failure> {
    let failed = |error: io::Error| unwritten(file.name, &error, &[]);
    if is_standard(file.name) {
        return Ok(None);
    }
    let old = match fs::metadata(file.name) {
        Ok(found) if found.is_dir() => return Err(failed(ErrorKind::IsADirectory.into())),
        Ok(found) if found.is_file() => Some(found),
        Ok(found) if found.file_type().is_block_device() && !force => {
            return Err(Failure::File(format!(
                "{}: is a disk, and is not overwritten; --force overwrites it",
                shown_name(file.name)
            )));
        }
        Ok(_) => return Ok(None),
        Err(error) if error.kind() == ErrorKind::NotFound => None,
        Err(error) => return Err(failed(error)),
    };
    let path = place(file.name).map_err(failed)?;
    if let Some(old) = &old {
        // a file that its owner has protected is not replaced either
        OpenOptions::new().write(true).open(file.name).map_err(failed)?;
        if !force {
            replaceable(file, old.len())?;
        }
        // a link of /proc to a file that has no name any more leads to no place
        if !same(file.name, &path) {
            return Ok(None);
        }
    }
    Ok(Some(Place { path, old }))
}

/// Refuses to replace a file of so many bytes that is not of its output's kind; an old set is one. With a file of no
/// bytes nothing is lost.
fn replaceable(file: &Output, size: u64) -> Result<(), Failure> {
    let (name, kind_name) = (shown_name(file.name), file.kind.name());
    let refused = |why: String| Failure::File(format!("{name}: {why}; --force replaces it"));
    let mut bytes = Vec::with_capacity(LONGEST as usize + 1);
    let set = file.kind == Kind::Set;
    if size > 0 && (file.kind.size_fits(size) || set && old::size_fits(size)) {
        let read = File::open(file.name).and_then(|opened| opened.take(LONGEST + 1).read_to_end(&mut bytes));
        read.map_err(|error| refused(format!("cannot be read, to see whether it is {kind_name}: {error}")))?;
    }
    match size == 0 || kind(&bytes) == Some(file.kind) || set && old::passes(&bytes) {
        true => Ok(()),
        false => Err(refused(format!("is not {kind_name}, and is not replaced"))),
    }
}

/// A new file beside its place, with its bytes on the disk. It goes where it is not renamed.
fn beside(file: &Output, place: &Place) -> Result<TempPath, Failure> {
    let made = created(&place.path).and_then(|(mut new, path)| {
        // the rights come first: what nobody else may read is never there to be read
        place.old.as_ref().map_or(Ok(()), |old| keep_rights(&new, old))?;
        new.write_all(file.bytes)?;
        new.sync_all()?;
        Ok(path)
    });
    made.map_err(|error| unwritten(file.name, &error, &[]))
}

/// A new file in the folder of a place, whose name tells what it was to be: `.NAME.RANDOM.new`. Its permissions are
/// those of any new file.
fn created(place: &Path) -> io::Result<(File, TempPath)> {
    let name: String = place.file_name().unwrap_or_default().to_string_lossy().chars().take(LETTERS).collect();
    let mut failed = io::Error::from(ErrorKind::AlreadyExists);
    for _ in 0..TRIES {
        let random = RandomState::new().build_hasher().finish();
        let path = place.with_file_name(format!(".{name}.{random:016x}.new"));
        match OpenOptions::new().write(true).create_new(true).open(&path) {
            Ok(file) => return Ok((file, TempPath::from_path(path))),
            Err(error) if error.kind() == ErrorKind::AlreadyExists => failed = error,
            Err(error) => return Err(error),
        }
    }
    Err(failed)
}

/// The permissions of a file that is replaced given to the new one, and its owner and its group as far as the system
/// allows.
fn keep_rights(new: &File, old: &Metadata) -> io::Result<()> {
    let made = new.metadata()?;
    if made.gid() != old.gid() {
        let _ = fchown(new, None, Some(old.gid()));
    }
    if made.uid() != old.uid() {
        let _ = fchown(new, Some(old.uid()), None);
    }
    match made.permissions() == old.permissions() {
        true => Ok(()),
        false => new.set_permissions(old.permissions()),
    }
}

/// An output that is no ordinary file, written directly.
fn stream(file: &Output) -> io::Result<()> {
    if is_standard(file.name) {
        let mut out = io::stdout().lock();
        out.write_all(file.bytes)?;
        return out.flush();
    }
    OpenOptions::new().write(true).truncate(true).open(file.name)?.write_all(file.bytes)
}

/// The new names of files put on the disk. Where a folder cannot do it, a power cut may bring the old files back,
/// whole.
fn keep_names(mut folders: Vec<PathBuf>) {
    folders.sort();
    folders.dedup();
    for folder in folders {
        let _ = File::open(folder).and_then(|opened| opened.sync_all());
    }
}

/// That an output cannot be written, and which others are.
fn unwritten(name: &Path, error: &io::Error, written: &[&Path]) -> Failure {
    let shown = |name: &Path| match is_standard(name) {
        true => "standard output".to_string(),
        false => shown_name(name),
    };
    let others: Vec<String> = written.iter().map(|name| shown(name)).collect();
    let behind = if others.is_empty() { String::new() } else { format!("; already written: {}", others.join(", ")) };
    Failure::File(format!("{}: cannot be written: {error}{behind}", shown(name)))
}
