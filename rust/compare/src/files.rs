//! Model files: valid ones of every shape, and damaged ones.

mod fixed;
mod lines;
mod models;
mod numerals;
mod random;
mod statements;
mod wrong;

pub use fixed::{fixed, fixed_outcomes, fixed_to_read};
pub use models::{DOUGH, TIGER};
pub use random::{noise, outcomes, random};

use crate::rng::Rng;
use std::path::{Path, PathBuf};
use std::{fs, io};

/// A file with a few words about it.
pub struct Case {
    pub about: String,
    pub file: Vec<u8>,
}

impl Case {
    fn new(about: impl Into<String>, file: impl Into<Vec<u8>>) -> Case {
        Case { about: about.into(), file: file.into() }
    }
}

/// What a folder holds, by name.
fn paths(folder: &Path) -> io::Result<Vec<PathBuf>> {
    let mut paths = fs::read_dir(folder)?.map(|entry| Ok(entry?.path())).collect::<io::Result<Vec<_>>>()?;
    paths.sort();
    Ok(paths)
}

/// The model files of a folder, by name.
pub fn models(folder: &Path) -> io::Result<Vec<PathBuf>> {
    let mut paths = paths(folder)?;
    paths.retain(|path| path.extension().map_or(false, |end| end == "pomdp"));
    Ok(paths)
}

/// The files of a folder by name, if there is one: each whole, and cut in a few places.
pub fn examples(folder: &Path, seed: u64) -> io::Result<Vec<(String, Case)>> {
    let mut cases = Vec::new();
    let mut paths = paths(folder)?;
    paths.retain(|path| path.is_file());
    if paths.is_empty() {
        return Err(io::Error::new(io::ErrorKind::NotFound, format!("no file in {}", folder.display())));
    }
    for path in paths {
        let file = fs::read(&path)?;
        let name = path.display().to_string();
        let mut rng = Rng::for_case(seed, &name, 0);
        for _ in 0..10 {
            let length = rng.index(file.len() + 1);
            let about = format!("{} cut at {}", name, length);
            cases.push((format!("example {}", name), Case { about, file: file[..length].to_vec() }));
        }
        cases.push((format!("example {}", name), Case { about: name.clone(), file }));
    }
    Ok(cases)
}

/// Bytes in a form that source text can hold; a long run of one byte is written as a product, as in `b"a" + b" " * 100`.
pub fn escaped(bytes: &[u8]) -> String {
    let literal = |bytes: &[u8]| {
        let text: String = bytes.iter().flat_map(|&byte| std::ascii::escape_default(byte)).map(char::from).collect();
        format!("b\"{}\"", text)
    };
    let mut parts = Vec::new();
    let mut from = 0;
    let mut at = 0;
    while at < bytes.len() {
        let run = bytes[at..].iter().take_while(|&&byte| byte == bytes[at]).count();
        if run >= 64 {
            if from < at {
                parts.push(literal(&bytes[from..at]));
            }
            parts.push(format!("{} * {}", literal(&bytes[at..=at]), run));
            from = at + run;
        }
        at += run;
    }
    if from < at || parts.is_empty() {
        parts.push(literal(&bytes[from..]));
    }
    parts.join(" + ")
}

#[cfg(test)]
mod tests {
    use super::lines::{dressed, plain};
    use super::statements::any_lines;
    use super::*;
    use reference::{read, Rules, FILE_BYTES};

    #[test]
    fn valid_files_read_in_every_dress() {
        for number in 0..400 {
            let mut rng = Rng::for_case(1, "valid", number);
            let (_, lines) = any_lines(&mut rng);
            for file in [plain(&lines), dressed(&mut rng, &lines)] {
                let refused = read(&file, &Rules::default()).err().map(|refusal| refusal.number);
                let expected = if file.len() > FILE_BYTES { Some(1) } else { None };
                assert_eq!(refused, expected, "{}", escaped(&file));
            }
        }
    }

    #[test]
    fn long_runs_are_written_as_products() {
        assert_eq!(escaped(b""), "b\"\"");
        assert_eq!(escaped(b"a\n\xff"), "b\"a\\n\\xff\"");
        let file = [&b"ab"[..], &[b' '; 100], b"c"].concat();
        assert_eq!(escaped(&file), "b\"ab\" + b\" \" * 100 + b\"c\"");
        assert_eq!(escaped(&[0; 64]), "b\"\\x00\" * 64");
    }

    #[test]
    fn every_refusal_of_a_file_occurs() {
        let mut seen = vec![0; 7];
        for case in fixed() {
            seen[read(&case.file, &Rules::default()).err().map_or(0, |refusal| refusal.number as usize)] += 1;
        }
        assert!(seen.iter().all(|&count| count > 0), "{:?}", seen);
    }
}
