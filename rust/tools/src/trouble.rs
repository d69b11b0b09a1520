//! Why a file cannot be read or written, in words.

use crate::cli::listed;
use std::ffi::OsStr;
use std::fs::{self, DirEntry};
use std::io::{self, ErrorKind};
use std::path::{Path, PathBuf};

/// The first folder on the way to a file that is not there.
fn no_folder(path: &Path) -> Option<String> {
    let folders = path.ancestors().skip(1);
    let missing = folders.take_while(|folder| *folder != Path::new("") && !folder.exists());
    let first = missing.last()?;
    Some(format!("there is no folder {}", first.display()))
}

/// The files of the same folder that have a name in other letters, or with .csv behind it.
fn alike(path: &Path) -> Option<Vec<PathBuf>> {
    let folder = path.parent()?;
    let name = path.file_name()?.to_str()?.to_lowercase();
    let names = [format!("{name}.csv"), name];
    let alike = |own: &OsStr| {
        own.to_str()
            .is_some_and(|own| names.contains(&own.to_lowercase()))
    };
    let inside = match folder == Path::new("") {
        true => fs::read_dir("."),
        false => fs::read_dir(folder),
    };
    let entries = inside.ok()?.flatten();
    let entries = entries.map(|entry: DirEntry| entry.file_name());
    let files = entries.filter(|own| alike(own)).map(|own| folder.join(own));
    let mut files: Vec<PathBuf> = files.filter(|file| file.is_file()).collect();
    files.sort_unstable();
    Some(files)
}

/// What is told of a file that is not there, with the one that may have been meant.
fn absent(path: &Path) -> String {
    if path.is_symlink() {
        return "it is a link to a file that is not there".into();
    }
    let meant = alike(path).unwrap_or_default();
    let meant: Vec<String> = meant
        .iter()
        .map(|file| file.display().to_string())
        .collect();
    match (no_folder(path), &meant[..]) {
        (Some(told), _) => told,
        (None, []) => "there is no such file".into(),
        (None, files) => format!(
            "there is no such file; did you mean {}?",
            listed(files, "or")
        ),
    }
}

/// What is told alike of a file to read and one to write.
fn either(path: &Path, error: &io::Error) -> String {
    let folder = path.as_os_str().as_encoded_bytes().ends_with(b"/");
    let told = match error.kind() {
        ErrorKind::IsADirectory => "it is a folder, not a file",
        ErrorKind::NotADirectory if folder => "it is named as a folder, not as a file",
        ErrorKind::NotADirectory => "a file stands on the way to it in the place of a folder",
        ErrorKind::InvalidFilename => "its name is too long",
        ErrorKind::ReadOnlyFilesystem => "it may not be written (read-only)",
        _ => return error.to_string(),
    };
    told.into()
}

/// Why a file cannot be read.
pub fn reading(path: &Path, error: &io::Error) -> String {
    match error.kind() {
        ErrorKind::NotFound => absent(path),
        ErrorKind::PermissionDenied => "it may not be read (permission)".into(),
        _ => either(path, error),
    }
}

/// Why a file cannot be written.
pub fn writing(path: &Path, error: &io::Error) -> String {
    match error.kind() {
        ErrorKind::NotFound => no_folder(path).unwrap_or_else(|| absent(path)),
        ErrorKind::PermissionDenied => "it may not be written (permission)".into(),
        _ => either(path, error),
    }
}

#[cfg(test)]
mod tests {
    use super::*;

    /// Catches a system's words for what has plain ones, the two ways confused, and other words lost.
    #[test]
    fn common_troubles_have_plain_words() {
        let path = Path::new("x.csv");
        let told = |kind: ErrorKind| {
            let error = io::Error::from(kind);
            [reading(path, &error), writing(path, &error)]
        };
        let read = "it may not be read (permission)";
        let write = "it may not be written (permission)";
        assert_eq!(told(ErrorKind::PermissionDenied), [read, write]);
        let folder = "it is a folder, not a file";
        assert_eq!(told(ErrorKind::IsADirectory), [folder; 2]);
        let way = "a file stands on the way to it in the place of a folder";
        assert_eq!(told(ErrorKind::NotADirectory), [way; 2]);
        assert_eq!(
            told(ErrorKind::InvalidFilename),
            ["its name is too long"; 2]
        );
        let only = "it may not be written (read-only)";
        assert_eq!(told(ErrorKind::ReadOnlyFilesystem), [only; 2]);
        let full = io::Error::from(ErrorKind::StorageFull);
        assert_eq!(writing(path, &full), full.to_string());
    }
}
