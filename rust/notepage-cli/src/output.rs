//! Sentences on standard error, and files that are never cut short.
use std::fs::{self, OpenOptions};
use std::io::{self, Write};
use std::path::Path;
use std::process;

/// A line on standard error; where that fails too there is nobody to tell.
pub fn tell(line: &str) {
    let _ = writeln!(io::stderr(), "{line}");
}

/// Writes a file beside its place and renames it: a reader sees the old bytes or all of the new ones.
pub fn replace(path: &Path, data: &[u8]) -> Result<(), String> {
    let path = fs::canonicalize(path).unwrap_or_else(|_| path.to_path_buf());
    let old = fs::metadata(&path).ok();
    if old.as_ref().is_some_and(|old| !old.is_file()) {
        return Err(format!("{} is no file that can be replaced", path.display()));
    }
    let Some(name) = path.file_name() else {
        return Err(format!("{} names no file", path.display()));
    };
    let mut beside = name.to_os_string();
    beside.push(format!(".{}.new", process::id()));
    let beside = path.with_file_name(beside);
    let written = beside_then_rename(&beside, &path, old, data);
    written.map_err(|error| {
        let _ = fs::remove_file(&beside);
        format!("{}: {}", path.display(), plain(&error))
    })
}

fn beside_then_rename(beside: &Path, path: &Path, old: Option<fs::Metadata>, data: &[u8]) -> io::Result<()> {
    let mut file = OpenOptions::new().write(true).create_new(true).open(beside)?;
    file.write_all(data)?;
    file.sync_all()?;
    if let Some(old) = old {
        file.set_permissions(old.permissions())?;
    }
    fs::rename(beside, path)
}

/// The system's words for an error, without its number.
pub fn plain(error: &io::Error) -> String {
    let words = error.to_string();
    words.split(" (os error").next().unwrap_or(&words).to_string()
}
