//! Files that are written whole or not at all.

use std::fs::{self, File, OpenOptions, Permissions};
use std::io::{self, BufWriter, ErrorKind, Write};
#[cfg(unix)]
use std::os::unix::fs::{OpenOptionsExt, PermissionsExt};
use std::path::{Path, PathBuf};
use std::process;

/// A file written beside its target and not yet moved there. Dropped, it is removed.
pub struct Staged {
    part: PathBuf,
    target: PathBuf,
    moved: bool,
}

/// Says early whether a file can be written beside its target, and leaves nothing behind.
pub fn probe(target: &Path) -> Result<(), String> {
    stage(target, |_| Ok(())).map(drop)
}

pub fn stage(
    target: &Path,
    fill: impl FnOnce(&mut BufWriter<File>) -> io::Result<()>,
) -> Result<Staged, String> {
    try_stage(target, fill).map_err(|e| cannot_write(target, &e))
}

/// Moves every file to its target, once all of them are whole.
pub fn commit(files: Vec<Staged>) -> Result<(), String> {
    for mut file in files {
        fs::rename(&file.part, &file.target).map_err(|e| cannot_write(&file.target, &e))?;
        file.moved = true;
    }
    Ok(())
}

/// Where a path leads, also when its file is still to be made.
pub fn place(path: &Path) -> PathBuf {
    if let Ok(found) = path.canonicalize() {
        return found;
    }
    match (folder(path).canonicalize(), path.file_name()) {
        (Ok(folder), Some(name)) => folder.join(name),
        _ => path.to_path_buf(),
    }
}

fn try_stage(
    target: &Path,
    fill: impl FnOnce(&mut BufWriter<File>) -> io::Result<()>,
) -> io::Result<Staged> {
    if !ends_in_a_name(target) {
        return Err(io::Error::other("no file name"));
    }
    let target = place(target);
    let old = replaced(&target)?;
    let (part, file) = create_part(&target, old.as_ref())?;
    let staged = Staged {
        part,
        target,
        moved: false,
    };
    if let Some(old) = old {
        file.set_permissions(old)?;
    }
    let mut output = BufWriter::with_capacity(1 << 16, file);
    fill(&mut output)?;
    output.flush()?;
    output.get_ref().sync_all()?;
    Ok(staged)
}

/// Not so of an empty path, `..`, or one with a slash at its end.
fn ends_in_a_name(path: &Path) -> bool {
    let bytes = path.as_os_str().as_encoded_bytes();
    let name = path.file_name();
    name.is_some_and(|name| bytes.ends_with(name.as_encoded_bytes()))
}

/// The permissions of the file that stands there. A rename would put a plain file in the place
/// of a device, a pipe or a link that leads nowhere.
fn replaced(target: &Path) -> io::Result<Option<Permissions>> {
    match fs::metadata(target) {
        Ok(found) if found.is_file() => Ok(Some(found.permissions())),
        Err(e) if e.kind() != ErrorKind::NotFound => Err(e),
        Err(_) if fs::symlink_metadata(target).is_err() => Ok(None),
        _ => Err(io::Error::other("not a plain file")),
    }
}

/// Creates a file of its own beside the target. A name may be taken, by a run that was killed
/// or by one in another container with the same process number.
fn create_part(target: &Path, old: Option<&Permissions>) -> io::Result<(PathBuf, File)> {
    const MOST_TRIES: u32 = 1000;
    let mut options = OpenOptions::new();
    options.write(true).create_new(true);
    no_wider(&mut options, old);
    let mut tries = 0;
    loop {
        let part = folder(target).join(format!(".sheet.{}.{tries}.part", process::id()));
        match options.open(&part) {
            Ok(file) => return Ok((part, file)),
            Err(e) if e.kind() == ErrorKind::AlreadyExists && tries < MOST_TRIES => tries += 1,
            Err(e) => return Err(e),
        }
    }
}

/// The mode of the new file is never wider than that of the old one, not even at its start.
#[cfg(unix)]
fn no_wider(options: &mut OpenOptions, old: Option<&Permissions>) {
    if let Some(old) = old {
        options.mode(old.mode());
    }
}

#[cfg(not(unix))]
fn no_wider(_: &mut OpenOptions, _: Option<&Permissions>) {}

fn folder(path: &Path) -> &Path {
    match path.parent() {
        Some(parent) if !parent.as_os_str().is_empty() => parent,
        _ => Path::new("."),
    }
}

fn cannot_write(target: &Path, error: &io::Error) -> String {
    format!("cannot write {}: {error}", target.display())
}

impl Drop for Staged {
    fn drop(&mut self) {
        // Once it is moved, another run may have taken the name.
        if !self.moved {
            let _ = fs::remove_file(&self.part);
        }
    }
}
