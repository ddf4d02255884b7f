//! Standard output and standard error. Where one of them cannot be written, that is how the command ends. One that is closed
//! before the command starts is not noticed here, since Rust's runtime opens it on /dev/null: `scripts/biidhaqun` looks for that.

use crate::files::plain;
use std::io::{self, Write};

/// Writes on standard output, or a sentence.
pub fn put(text: &str) -> Result<(), String> {
    let mut out = io::stdout().lock();
    shown("standard output", out.write_all(text.as_bytes()).and_then(|()| out.flush()))
}

/// Writes on standard error, or a sentence.
pub fn tell(text: &str) -> Result<(), String> {
    shown("standard error", io::stderr().write_all(text.as_bytes()))
}

/// Whether a stream was written, or a sentence.
pub fn shown(stream: &str, written: io::Result<()>) -> Result<(), String> {
    written.map_err(|error| format!("{} cannot be written: {}", stream, plain(&error)))
}
