//! `convert`: a file whose rewards depend on what follows as a model file, by the library.

use crate::stop::{put, Stop};
use biidhaqun::slices::FILE_BYTES;
use biidhaqun::{Model, Shape};
use command::files;
use command::names::Named;
use std::path::Path;

pub fn run(path: &Path, out: Option<&Path>) -> Result<(), Stop> {
    let file = files::front(path, FILE_BYTES).map_err(Stop::File)?;
    let written = match biidhaqun::convert(&file) {
        Ok(written) => written,
        Err(refusal) => return Err(Stop::Conversion { path: path.to_path_buf(), file, refusal }),
    };
    match out {
        Some(out) => files::write(out, &named(&file, written)).map_err(Stop::File),
        None => put(&String::from_utf8_lossy(&written)),
    }
}

/// What the library wrote, with the file's comments in front that name states, actions and observations. Where the library would
/// not read that as the same model, because it is too long, they are left out.
fn named(file: &[u8], written: Vec<u8>) -> Vec<u8> {
    let read = Model::read(&written);
    let comments = read.as_ref().map_or(String::new(), |(model, _)| {
        let Shape { states, actions, observations } = model.shape();
        Named::of(file, states, actions, observations).comments()
    });
    let commented = [comments.as_bytes(), &written].concat();
    if Model::read(&commented) == read {
        commented
    } else {
        written
    }
}
