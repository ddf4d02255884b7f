//! The reference prints what is kept beside each model file of the repository.

use reference::{convert, ladder, Rules, FILE_BYTES};
use std::fs;
use std::path::Path;

#[test]
fn each_file_prints_what_is_expected() {
    let mut count = 0;
    for folder in ["examples", "tests/files"] {
        let folder = Path::new(env!("CARGO_MANIFEST_DIR")).join("../..").join(folder);
        for entry in fs::read_dir(folder).unwrap() {
            let path = entry.unwrap().path();
            if path.extension().map_or(false, |kind| kind == "pomdp") {
                let expected = fs::read_to_string(path.with_extension("expected")).unwrap();
                assert_eq!(ladder(&fs::read(&path).unwrap(), &Rules::default()), expected, "{}", path.display());
                count += 1;
            }
        }
    }
    assert!(count > 4);
}

#[test]
fn the_file_with_outcomes_is_converted() {
    let folder = Path::new(env!("CARGO_MANIFEST_DIR")).join("../../examples/outcomes");
    let file = fs::read(folder.join("glazing.pomdp")).unwrap();
    let written = fs::read(folder.join("glazing.written")).unwrap();
    assert_eq!(convert(&file, FILE_BYTES, &Rules::default()), Ok(written));
}
