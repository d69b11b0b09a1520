//! Files as commands use them: read as far as they can be of use, written whole or not at all, - for
//! standard input and output, and no output over an input.

use crate::cli::{usage, Failure, Outcome};
use crate::streams;
use crate::trouble::{reading, writing};
use std::fs::{self, File, Metadata, OpenOptions, Permissions};
use std::io::{self, Read, Write};
use std::os::fd::AsFd;
use std::os::unix::fs::MetadataExt;
use std::path::{Path, PathBuf};

/// Whether a name stands for standard input or output.
fn standard(path: &Path) -> bool {
    path.as_os_str() == "-"
}

/// A file that is read, as messages name it.
pub fn input(path: &Path) -> String {
    match standard(path) {
        true => "standard input".into(),
        false => path.display().to_string(),
    }
}

/// A file that is written, as messages name it.
fn output(path: &Path) -> String {
    match standard(path) {
        true => "standard output".into(),
        false => path.display().to_string(),
    }
}

/// How many bytes tell how much of a file is read.
const HEAD: u64 = 9;

/// What can be read up to the most that its first bytes allow, and one byte more, by which a longer one is
/// known.
fn up_to(mut from: impl Read, most: impl Fn(&[u8]) -> usize) -> io::Result<Vec<u8>> {
    let mut bytes = Vec::new();
    from.by_ref().take(HEAD).read_to_end(&mut bytes)?;
    let left = (most(&bytes) + 1).saturating_sub(bytes.len());
    from.take(left as u64).read_to_end(&mut bytes)?;
    Ok(bytes)
}

/// The bytes of a file, or of standard input for -, up to the most that its first bytes allow and one more.
pub fn read(path: &Path, most: impl Fn(&[u8]) -> usize) -> Result<Vec<u8>, Failure> {
    let done = match standard(path) {
        true => streams::input().and_then(|()| up_to(io::stdin().lock(), most)),
        false => File::open(path).and_then(|file| up_to(file, most)),
    };
    done.map_err(|error| usage(&format!("{}: {}", input(path), reading(path, &error))))
}

/// Refuses standard input for two inputs, of which the second would find nothing.
pub fn once(inputs: &[&Path]) -> Outcome {
    match inputs.iter().filter(|path| standard(path)).count() {
        0 | 1 => Ok(()),
        _ => Err(usage("standard input can be read once only")),
    }
}

/// What the system knows of an open stream.
fn about(stream: impl AsFd) -> Option<Metadata> {
    let own = stream.as_fd().try_clone_to_owned().ok()?;
    File::from(own).metadata().ok()
}

/// Whether both are one file, by whatever path or link.
fn same(one: &Option<Metadata>, other: &Option<Metadata>) -> bool {
    let key = |file: &Metadata| (file.dev(), file.ino());
    one.is_some() && one.as_ref().map(key) == other.as_ref().map(key)
}

/// Refuses an output that is the file of an input, which would be lost. Terminals and
/// pipes may be both.
pub fn apart(to: &Path, inputs: &[&Path]) -> Outcome {
    let written = match standard(to) {
        true => about(io::stdout()),
        false => fs::metadata(to).ok(),
    };
    let written = written.filter(Metadata::is_file);
    let read = |path: &Path| match standard(path) {
        true => about(io::stdin()),
        false => fs::metadata(path).ok(),
    };
    match inputs.iter().find(|path| same(&written, &read(path))) {
        Some(path) => Err(usage(&format!(
            "{} and {} are one file, which would be overwritten; name another output",
            input(path),
            output(to)
        ))),
        None => Ok(()),
    }
}

/// Whether a file is standard output, by whichever name. In the place of one that was closed stands
/// another file, which may be written.
pub fn is_output(path: &Path) -> bool {
    let there = || match streams::output_closed() {
        true => streams::named_output(path),
        false => same(&fs::metadata(path).ok(), &about(io::stdout())),
    };
    standard(path) || there()
}

/// Writes a file, or standard output for -.
pub fn write(path: impl AsRef<Path>, bytes: &[u8]) -> Outcome {
    let path = path.as_ref();
    let there = fs::metadata(path).ok();
    let done = if is_output(path) {
        emit(bytes)
    } else if there.is_some_and(|file| !file.is_file()) {
        fs::write(path, bytes) // a device or a pipe stays what it is
    } else {
        replace(path, bytes)
    };
    done.map_err(|error| usage(&format!("{}: {}", output(path), writing(path, &error))))
}

/// Writes text to standard output.
pub fn print(text: &str) -> Outcome {
    write("-", text.as_bytes())
}

/// Writes all bytes to standard output, out of the buffer too. A pipe whose reader is gone is no
/// error: the reader had what it wanted.
fn emit(bytes: &[u8]) -> io::Result<()> {
    streams::output()?;
    let mut out = io::stdout().lock();
    match out.write_all(bytes).and_then(|()| out.flush()) {
        Err(error) if error.kind() == io::ErrorKind::BrokenPipe => Ok(()),
        done => done,
    }
}

/// The file that a link leads to, which need not be there yet; else the path itself.
fn behind(path: &Path) -> PathBuf {
    let beside = |to: PathBuf| path.parent().unwrap_or(Path::new("")).join(to);
    fs::canonicalize(path)
        .or_else(|_| fs::read_link(path).map(beside))
        .unwrap_or_else(|_| path.to_path_buf())
}

/// The permissions of a file that may be written, or none where there is no file.
fn permissions(path: &Path) -> io::Result<Option<Permissions>> {
    match OpenOptions::new().write(true).open(path) {
        Ok(file) => Ok(Some(file.metadata()?.permissions())),
        Err(error) if error.kind() == io::ErrorKind::NotFound => Ok(None),
        Err(error) => Err(error),
    }
}

/// A new file in a folder.
fn fresh(folder: &Path) -> io::Result<(PathBuf, File)> {
    let mut number = 0;
    loop {
        let name = format!(".market-risk-{}-{number}.part", std::process::id());
        let path = folder.join(name);
        match File::create_new(&path) {
            Err(error) if error.kind() == io::ErrorKind::AlreadyExists => number += 1,
            done => return done.map(|file| (path, file)),
        }
    }
}

/// Writes a new file beside the target, which takes its name once it is whole; a write
/// that fails leaves the target as it was and nothing beside it.
fn replace(path: &Path, bytes: &[u8]) -> io::Result<()> {
    let target = behind(path);
    let old = permissions(&target)?;
    let (part, mut file) = fresh(target.parent().unwrap_or(Path::new("")))?;
    let fill = || {
        file.write_all(bytes)?;
        old.map_or(Ok(()), |old| file.set_permissions(old))?;
        file.sync_all()?;
        fs::rename(&part, &target)
    };
    fill().inspect_err(|_| drop(fs::remove_file(&part)))
}
