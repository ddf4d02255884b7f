//! Who answers for a model file: a program, or a copy of the reference.

use reference::{ladder, Rules};
use std::io::{self, Read, Write};
use std::path::{Path, PathBuf};
use std::process::{Child, Command, Stdio};
use std::sync::mpsc;
use std::thread;
use std::time::Duration;

/// How long a program may take for one file.
const PATIENCE: Duration = Duration::from_secs(60);

/// Who is compared with the reference.
pub enum Answerer {
    /// The executable at a path: it reads the file from standard input.
    Program(PathBuf),
    /// The reference by these rules.
    Copy(Rules),
}

impl Answerer {
    /// All that is printed for a file. What a program should not do (faulting, failing, printing errors, not ending) is told in
    /// words, so that it differs from every answer.
    pub fn answer(&self, file: &[u8]) -> io::Result<String> {
        match self {
            Answerer::Program(path) => run(path, file),
            Answerer::Copy(rules) => Ok(ladder(file, rules)),
        }
    }
}

/// Runs a program on a file.
fn run(path: &Path, file: &[u8]) -> io::Result<String> {
    let mut child = Command::new(path).stdin(Stdio::piped()).stdout(Stdio::piped()).stderr(Stdio::piped()).spawn()?;
    let printed = talk(&mut child, file.to_vec());
    if printed.is_none() {
        child.kill()?;
    }
    let status = child.wait()?;
    let (printed, complaints) = match printed {
        Some(printed) => printed,
        None => return Ok(format!("(no end within {} seconds)", PATIENCE.as_secs())),
    };
    let mut answer = String::from_utf8_lossy(&printed).into_owned();
    if !complaints.is_empty() {
        answer.push_str(&format!("(standard error: {})", String::from_utf8_lossy(&complaints)));
    }
    if !status.success() {
        answer.push_str(&format!("({})", status));
    }
    Ok(answer)
}

/// Hands a program its input, and takes what it prints to both outputs; none if that takes too long.
fn talk(child: &mut Child, file: Vec<u8>) -> Option<(Vec<u8>, Vec<u8>)> {
    let mut input = child.stdin.take()?;
    let mut output = child.stdout.take()?;
    let mut errors = child.stderr.take()?;
    let (sender, receiver) = mpsc::channel();
    thread::spawn(move || {
        // A program may end without reading all of a file that is too long.
        let _ = input.write_all(&file);
        drop(input);
        let (mut printed, mut complaints) = (Vec::new(), Vec::new());
        let _ = output.read_to_end(&mut printed);
        let _ = errors.read_to_end(&mut complaints);
        let _ = sender.send((printed, complaints));
    });
    receiver.recv_timeout(PATIENCE).ok()
}
