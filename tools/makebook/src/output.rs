//! The file that is written: never half, and never over something that is not a book's file.

use std::fs::{self, File, OpenOptions};
use std::io::{self, Write};
use std::os::unix::fs::MetadataExt;
use std::path::{Path, PathBuf};

/// The file that OUT names, links followed: it is none yet, or a plain file that may be written and
/// is not FILE.
pub fn target(file: &Path, out: &Path) -> Result<PathBuf, String> {
    let wrong = |what: &str| Err(format!("{}: {what}", out.display()));
    if out.file_name().is_none() {
        return wrong("is no name of a file");
    }
    if fs::symlink_metadata(out).is_err_and(|error| error.kind() == io::ErrorKind::NotFound) {
        return Ok(out.to_path_buf());
    }
    let path = fs::canonicalize(out).map_err(|error| format!("{}: {error}", out.display()))?;
    let found = fs::metadata(&path).map_err(|error| format!("{}: {error}", out.display()))?;
    let given = fs::metadata(file).map_err(|error| format!("{}: {error}", file.display()))?;
    if (given.dev(), given.ino()) == (found.dev(), found.ino()) {
        return wrong("is the file of the formulas itself; the book needs another name");
    }
    if !found.is_file() {
        return wrong("is there and is no plain file");
    }
    // A rename asks for leave to write the folder only, so leave to write the file is asked for here; root always has it.
    if found.permissions().readonly() || OpenOptions::new().write(true).open(&path).is_err() {
        return wrong("may not be written");
    }
    Ok(path)
}

/// Writes the bytes to a new file beside the target and renames it when all of them are written.
pub fn put(target: &Path, bytes: &[u8]) -> io::Result<()> {
    let mut name = target.file_name().unwrap_or_default().to_os_string();
    name.push(format!(".new-{}", std::process::id()));
    let beside = target.with_file_name(name);
    let file = OpenOptions::new().write(true).create_new(true).open(&beside)?;
    let done = fill(file, target, bytes).and_then(|()| fs::rename(&beside, target));
    if done.is_err() {
        // what is wrong is told already; the target is as it was
        let _ = fs::remove_file(&beside);
    }
    done
}

fn fill(mut file: File, target: &Path, bytes: &[u8]) -> io::Result<()> {
    file.write_all(bytes)?;
    if let Ok(old) = fs::metadata(target) {
        file.set_permissions(old.permissions())?;
    }
    file.sync_all()
}
