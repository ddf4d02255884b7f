//! Lines of words, and what stands between words in a file.

use crate::rng::Rng;

/// Lines of words.
pub(super) type Lines = Vec<Vec<Vec<u8>>>;

/// The words of a text without comments.
pub(super) fn split(text: &str) -> Lines {
    let line = |line: &str| {
        let parted = line.replace(':', " : ");
        parted.split_whitespace().map(|word| word.as_bytes().to_vec()).collect()
    };
    text.lines().map(line).collect()
}

/// Words as bytes.
pub(super) fn words(texts: &[&str]) -> Vec<Vec<u8>> {
    texts.iter().map(|text| text.as_bytes().to_vec()).collect()
}

/// The number of a line and of a word in it.
pub(super) fn some_word(rng: &mut Rng, lines: &Lines) -> (usize, usize) {
    let line = rng.index(lines.len());
    (line, rng.index(lines[line].len()))
}

/// Changes the last digit of a number with a point, if one is found.
pub(super) fn nudge(rng: &mut Rng, lines: &mut Lines) {
    for _ in 0..20 {
        let (line, at) = some_word(rng, lines);
        let word = &mut lines[line][at];
        if word.contains(&b'.') {
            if let Some(last) = word.iter().rposition(u8::is_ascii_digit) {
                word[last] = b'0' + (word[last] - b'0' + 1) % 10;
                return;
            }
        }
    }
}

/// The lines with one word replaced.
pub(super) fn replaced(lines: &Lines, line: usize, at: usize, word: &[u8]) -> Lines {
    let mut lines = lines.clone();
    lines[line][at] = word.to_vec();
    lines
}

/// The lines with a space between words and an LF after each line.
pub(super) fn plain(lines: &Lines) -> Vec<u8> {
    let mut file = Vec::new();
    for line in lines {
        file.extend(line.join(&b' '));
        file.push(b'\n');
    }
    file
}

/// The lines with all kinds of spaces and comments between words.
pub(super) fn dressed(rng: &mut Rng, lines: &Lines) -> Vec<u8> {
    if rng.once_in(3) {
        return plain(lines);
    }
    let tight = rng.once_in(2);
    let wild = rng.pick(&[0, 4, 20]);
    let end = rng.pick(&[&b"\n"[..], b"\r\n", b" ", b"\n\n", b" # next\n", b"#\r\n"]);
    let mut file = Vec::new();
    for line in lines {
        for (at, word) in line.iter().enumerate() {
            let by_colon = at == 0 || word == b":" || line[at - 1] == b":";
            if !(by_colon && tight) || (at > 0 && rng.once_in(9)) {
                file.push(b' ');
            }
            if wild > 0 && rng.once_in(wild) {
                file.extend(gap(rng));
            }
            file.extend_from_slice(word);
        }
        file.extend_from_slice(end);
    }
    if rng.once_in(4) {
        file.extend(gap(rng));
        file.extend_from_slice(b"# the end: 1 2 *");
    }
    file
}

/// Spaces of some kind, or a comment with anything in it.
fn gap(rng: &mut Rng) -> Vec<u8> {
    match rng.below(3) {
        0 => rng.pick(&[&b" "[..], b"\t", b"\r", b"\n", b"\r\n", b" \t \n"]).to_vec(),
        1 => b"#\n".to_vec(),
        _ => {
            let mut comment = vec![b'#'];
            for _ in 0..rng.below(12) {
                let byte = rng.next() as u8;
                comment.push(if byte == b'\n' { b'\r' } else { byte });
            }
            comment.push(b'\n');
            comment
        }
    }
}
