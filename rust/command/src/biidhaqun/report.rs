//! Refusals as compilers show errors: the file, the line and the column, the line with a mark, and what was wanted. Each
//! function says whether standard error could be written.

use biidhaqun::Refusal;
use codespan_reporting::diagnostic::{Diagnostic, Label};
use codespan_reporting::files::SimpleFile;
use codespan_reporting::term::termcolor::{BufferWriter, ColorChoice};
use codespan_reporting::term::{self, Config, DisplayStyle};
use command::model_file::{self, Draft, Trouble};
use command::streams;
use command::told::Told;
use std::path::Path;

/// The longest line that is shown.
const LONG: usize = 400;

/// A refused model file, in the shell's words. The library's refusal counts: where the shell finds another one, the
/// library's own sentence is shown, and that the shell is wrong.
pub fn model(path: &Path, file: &[u8], refusal: &Refusal) -> Result<(), String> {
    judged(path, file, refusal, model_file::judge(file))
}

/// A refused file to convert, likewise.
pub fn conversion(path: &Path, file: &[u8], refusal: &Refusal) -> Result<(), String> {
    judged(path, file, refusal, model_file::judge_outcomes(file))
}

fn judged(path: &Path, file: &[u8], refusal: &Refusal, judged: Result<Draft, Trouble>) -> Result<(), String> {
    match judged {
        Err(trouble) if (trouble.number, trouble.place) == (refusal.number(), refusal.place.number()) => {
            show(path, file, &trouble.told, Some(&refusal.number().to_string()), &[more(refusal)])
        }
        other => {
            let told = Told { title: refusal.to_string(), marks: Vec::new(), notes: Vec::new() };
            let found = other.err().map_or("nothing".to_string(), |own| format!("{} at {}", own.number, own.place));
            let ours = format!("the explanation finds {} instead, which is an error of ours: please report it", found);
            show(path, file, &told, Some(&refusal.number().to_string()), &[ours])
        }
    }
}

/// A refused model file in a line, where the shell finds what the library refused.
pub fn model_in_brief(path: &Path, file: &[u8], refusal: &Refusal) -> Option<String> {
    let trouble = model_file::judge(file).err()?;
    let same = (trouble.number, trouble.place) == (refusal.number(), refusal.place.number());
    same.then(|| brief(path, file, &trouble.told))
}

/// The file, the line and the column, and what is said of it, in a line.
pub fn brief(path: &Path, file: &[u8], told: &Told) -> String {
    let mark = told.marks.first();
    let place = mark.map(|mark| Shown::of(file).line_and_column(mark.span.start));
    let place = place.map_or(String::new(), |(line, column)| format!(":{}:{}", line, column));
    let mut said = vec![&told.title];
    said.extend(mark.map(|mark| &mark.text));
    said.extend(&told.notes);
    let said: Vec<&str> = said.into_iter().map(String::as_str).collect();
    format!("{}{}: {}", path.display(), place, said.join("; "))
}

/// A refused file of a solver, in the shell's words.
pub fn solver(path: &Path, file: &[u8], refusal: &Refusal, told: &Told) -> Result<(), String> {
    show(path, file, told, Some(&refusal.number().to_string()), &[more(refusal)])
}

/// Where a refusal is from, and where more is said.
fn more(refusal: &Refusal) -> String {
    format!("refusal {0} of docs/RULES.md; `biidhaqun explain {0}` says more", refusal.number())
}

/// A refusal that the shell does not find.
pub fn unexplained(path: &Path, file: &[u8], refusal: &Refusal) -> Result<(), String> {
    let told = Told { title: refusal.to_string(), marks: Vec::new(), notes: Vec::new() };
    let ours = "the explanation finds nothing, which is an error of ours: please report it".to_string();
    show(path, file, &told, Some(&refusal.number().to_string()), &[ours])
}

/// What is wrong with a file in Cassandra's format: the first few.
pub fn source(path: &Path, file: &[u8], all: &[Told]) -> Result<(), String> {
    const FEW: usize = 4;
    for told in all.iter().take(FEW) {
        show(path, file, told, None, &[])?;
    }
    if all.len() > FEW {
        streams::tell(&format!("biidhaqun: and {} more of this kind\n", all.len() - FEW))?;
    }
    Ok(())
}

fn show(path: &Path, file: &[u8], told: &Told, code: Option<&str>, more: &[String]) -> Result<(), String> {
    let shown = Shown::of(file);
    let labels = told.marks.iter().enumerate().map(|(at, mark)| {
        let span = shown.place(mark.span.start)..shown.place(mark.span.end);
        let label = if at == 0 { Label::primary((), span) } else { Label::secondary((), span) };
        label.with_message(&mark.text)
    });
    let mut title = told.title.clone();
    if told.marks.is_empty() {
        title = format!("{}: {}", path.display(), title);
    }
    let mut diagnostic = Diagnostic::error().with_message(title).with_labels(labels.collect());
    diagnostic.code = code.map(str::to_string);
    diagnostic.notes = told.notes.iter().chain(more).cloned().collect();
    // A line that fills a screen is not shown; its mark is told in words.
    let long = told.marks.iter().any(|mark| shown.line(mark.span.start).len() > LONG);
    let display_style = if long { DisplayStyle::Medium } else { DisplayStyle::Rich };
    if let (true, Some(mark)) = (long, told.marks.first()) {
        diagnostic.notes.insert(0, mark.text.clone());
    }
    let choice = if console::user_attended_stderr() { ColorChoice::Auto } else { ColorChoice::Never };
    let writer = BufferWriter::stderr(choice);
    let mut buffer = writer.buffer();
    let source = SimpleFile::new(path.display().to_string(), &shown.text);
    match term::emit(&mut buffer, &Config { display_style, ..Config::default() }, &source, &diagnostic) {
        Ok(()) => streams::shown("standard error", writer.print(&buffer)),
        Err(_) => streams::tell(&format!("biidhaqun: {}: {}\n", path.display(), told.title)),
    }
}

/// A file of any bytes as text, and where in it each byte stands.
struct Shown {
    text: String,
    places: Vec<usize>,
}

impl Shown {
    fn of(file: &[u8]) -> Shown {
        let mut shown = Shown { text: String::new(), places: Vec::with_capacity(file.len() + 1) };
        let mut rest = file;
        while !rest.is_empty() {
            let (valid, broken) = match std::str::from_utf8(rest) {
                Ok(text) => (text, 0),
                Err(error) => (std::str::from_utf8(&rest[..error.valid_up_to()]).unwrap_or(""), 1),
            };
            for letter in valid.chars() {
                let visible = match letter {
                    '\n' | '\t' => letter,
                    '\r' => ' ',
                    _ if letter.is_control() || letter == '\u{feff}' => char::REPLACEMENT_CHARACTER,
                    _ => letter,
                };
                shown.push(visible, letter.len_utf8());
            }
            rest = &rest[valid.len()..];
            if broken > 0 {
                shown.push(char::REPLACEMENT_CHARACTER, broken);
                rest = &rest[broken..];
            }
        }
        shown.places.push(shown.text.len());
        shown
    }

    /// A letter that stands for so many bytes.
    fn push(&mut self, letter: char, bytes: usize) {
        self.places.extend(std::iter::repeat(self.text.len()).take(bytes));
        self.text.push(letter);
    }

    /// The number of the line that a byte of the file stands in, and of the column, from 1.
    fn line_and_column(&self, byte: usize) -> (usize, usize) {
        let before = &self.text[..self.place(byte)];
        let start = before.rfind('\n').map_or(0, |end| end + 1);
        (before.matches('\n').count() + 1, before[start..].chars().count() + 1)
    }

    /// The line that a byte of the file stands in.
    fn line(&self, byte: usize) -> &str {
        let (before, behind) = self.text.split_at(self.place(byte));
        let start = before.rfind('\n').map_or(0, |end| end + 1);
        let end = behind.find('\n').map_or(self.text.len(), |end| before.len() + end);
        &self.text[start..end]
    }

    /// The place of a byte of the file in the text.
    fn place(&self, byte: usize) -> usize {
        self.places.get(byte).copied().unwrap_or(self.text.len())
    }
}

#[cfg(test)]
mod tests {
    use super::*;

    #[test]
    fn every_byte_has_a_place() {
        let shown = Shown::of("a\u{e9}\r\n".as_bytes());
        assert_eq!((&shown.text[..], &shown.places[..]), ("a\u{e9} \n", &[0, 1, 1, 3, 4, 5][..]));
        assert_eq!(shown.line(1), "a\u{e9} ");
        assert_eq!([0, 1, 3, 4, 5].map(|byte| shown.line_and_column(byte)), [(1, 1), (1, 2), (1, 3), (1, 4), (2, 1)]);
        let shown = Shown::of(b"\xff\x00z");
        assert_eq!((&shown.text[..], &shown.places[..]), ("\u{fffd}\u{fffd}z", &[0, 3, 6, 7][..]));
    }
}
