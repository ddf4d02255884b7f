//! The words of a model file, with their places.

use std::ops::Range;

/// A word: its bytes, and how many bytes stand before it.
#[derive(Clone, Copy, Debug, PartialEq, Eq)]
pub struct Word<'a> {
    pub place: usize,
    pub bytes: &'a [u8],
}

impl Word<'_> {
    /// Where the word stands.
    pub fn span(&self) -> Range<usize> {
        self.place..self.place + self.bytes.len()
    }

    /// Whether it is this one.
    pub fn is(&self, text: &str) -> bool {
        self.bytes == text.as_bytes()
    }

    /// What helps where it opens with a byte-order mark, or has the zero bytes of UTF-16, as some editors save files.
    pub fn encoding(&self) -> Option<&'static str> {
        match self.bytes {
            [0xef, 0xbb, 0xbf, ..] => Some("the file begins with a byte-order mark; save it without one"),
            [0xff, 0xfe, ..] | [0xfe, 0xff, ..] => {
                Some("the file is in UTF-16; save it as plain text, in ASCII or UTF-8")
            }
            bytes if bytes.contains(&0) => {
                Some("the word has a zero byte, as in UTF-16; save the file as plain text, in ASCII or UTF-8")
            }
            _ => None,
        }
    }

    /// The word between backquotes, long ones cut.
    pub fn quoted(&self) -> String {
        const LONGEST: usize = 40;
        let text = String::from_utf8_lossy(self.bytes);
        let shown: String = text.chars().take(LONGEST).flat_map(char::escape_debug).collect();
        format!("`{}{}`", shown, if text.chars().count() > LONGEST { ".." } else { "" })
    }
}

/// The words from a place on. Space, tab, CR and LF part words, a colon is a word by itself, a hash ends a word and opens
/// a comment up to the next LF.
#[derive(Clone, Debug)]
pub struct Words<'a> {
    file: &'a [u8],
    place: usize,
}

impl<'a> Words<'a> {
    pub fn of(file: &'a [u8]) -> Words<'a> {
        Words { file, place: 0 }
    }

    /// How many bytes from here on, up to the end, meet a test.
    fn run(&self, test: impl Fn(u8) -> bool) -> usize {
        self.file[self.place..].iter().take_while(|&&byte| test(byte)).count()
    }
}

/// The last place of a file that is worth pointing at: behind its last word.
pub fn end(file: &[u8]) -> Range<usize> {
    let last = Words::of(file).last().map_or(0, |word| word.span().end);
    last..last
}

fn parts(byte: u8) -> bool {
    matches!(byte, b' ' | b'\t' | b'\r' | b'\n')
}

impl<'a> Iterator for Words<'a> {
    type Item = Word<'a>;

    fn next(&mut self) -> Option<Word<'a>> {
        self.place += self.run(parts);
        while self.file.get(self.place) == Some(&b'#') {
            self.place += self.run(|byte| byte != b'\n');
            self.place += self.run(parts);
        }
        let place = self.place;
        self.place += match self.file.get(place)? {
            b':' => 1,
            _ => self.run(|byte| !parts(byte) && byte != b':' && byte != b'#'),
        };
        Some(Word { place, bytes: &self.file[place..self.place] })
    }
}

#[cfg(test)]
mod tests {
    use super::*;

    #[test]
    fn words_and_their_places() {
        let words = |file: &'static [u8]| -> Vec<(usize, &[u8])> {
            Words::of(file).map(|word| (word.place, word.bytes)).collect()
        };
        assert_eq!(words(b" T:0\t#x\n\r1#"), [(1, &b"T"[..]), (2, b":"), (3, b"0"), (9, b"1")]);
        assert_eq!(words(b"# one\n# two\n\n:: x"), [(13, &b":"[..]), (14, b":"), (16, b"x")]);
        assert_eq!(words(b"#"), []);
    }

    #[test]
    fn marks_of_an_encoding() {
        let first = |file: &'static [u8]| Words::of(file).next().and_then(|word| word.encoding());
        assert!(first(b"\xef\xbb\xbfdiscount: 1").unwrap().contains("byte-order mark"));
        assert!(first(b"\xff\xfed\0i\0").unwrap().contains("UTF-16"));
        assert!(first(b"d\0i\0s\0").unwrap().contains("as in UTF-16"));
        assert_eq!((first(b"discount: 1"), first(b"\xff")), (None, None));
    }

    #[test]
    fn behind_the_last_word() {
        assert_eq!((end(b"T: 0 # x\n"), end(b" \n#")), (4..4, 0..0));
    }
}
