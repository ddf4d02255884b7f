//! Files that are read and written.

use crate::options::Request;
use std::fs::{self, Metadata};
use std::io::{self, Read};
use std::os::unix::fs::MetadataExt;
use std::path::Path;

/// The bytes of a file, or a sentence. Of one that has more than a limit one byte more is taken: enough for the library to
/// refuse it by its length.
pub fn front(path: &Path, limit: usize) -> Result<Vec<u8>, String> {
    let mut bytes = Vec::new();
    let taken = fs::File::open(path).and_then(|file| file.take(limit as u64 + 1).read_to_end(&mut bytes));
    taken.map(|_| bytes).map_err(|error| unread(path, &plain(&error)))
}

/// The bytes of a file that has no more than so many MiB, or a sentence.
pub fn whole(path: &Path, mebibytes: usize) -> Result<Vec<u8>, String> {
    let limit = mebibytes << 20;
    match front(path, limit)? {
        bytes if bytes.len() > limit => {
            Err(unread(path, &format!("it has more than {} MiB, the most of such a file", mebibytes)))
        }
        bytes => Ok(bytes),
    }
}

fn unread(path: &Path, reason: &str) -> String {
    format!("{} cannot be read: {}", path.display(), reason)
}

/// Writes a file, or a sentence.
pub fn write(path: &Path, bytes: &[u8]) -> Result<(), String> {
    fs::write(path, bytes).map_err(|error| format!("{} cannot be written: {}", path.display(), plain(&error)))
}

/// The error without its number.
pub(crate) fn plain(error: &io::Error) -> String {
    let text = error.to_string();
    text.split(" (os error").next().unwrap_or(&text).to_lowercase()
}

/// A look at a file that is to be read later. Only regular files and folders are opened: what is read of a pipe is gone.
fn look(path: &Path) -> io::Result<()> {
    let about = fs::metadata(path)?;
    if about.is_file() || about.is_dir() {
        return fs::File::open(path).and_then(|mut file| file.read(&mut [0])).map(drop);
    }
    Ok(())
}

/// The file that a request would both read and write, in a sentence: by whatever names, it is the same one.
pub fn clash(request: &Request) -> Option<String> {
    let which = |path: &Path| fs::metadata(path).ok().filter(Metadata::is_file).map(|about| (about.dev(), about.ino()));
    let output = request.output()?;
    let written = which(output)?;
    let read = request.inputs().into_iter().find(|path| which(path) == Some(written))?;
    Some(format!("--out {} would overwrite {}, which is read; name another file", output.display(), read.display()))
}

/// Whether the files of a request can be read, and stand where they can be written.
pub fn early(request: &Request) -> Result<(), String> {
    for path in request.inputs() {
        look(path).map_err(|error| unread(path, &plain(&error)))?;
    }
    if let Some(path) = request.output() {
        let folder = path.parent().filter(|folder| !folder.as_os_str().is_empty()).unwrap_or_else(|| Path::new("."));
        if path.is_dir() || !folder.is_dir() {
            let reason = if path.is_dir() { "it is a folder" } else { "its folder does not exist" };
            return Err(format!("{} cannot be written: {}", path.display(), reason));
        }
    }
    Ok(())
}
