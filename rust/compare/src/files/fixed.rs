//! The files that are the same for every seed.

use super::lines::{dressed, plain, replaced, split, Lines};
use super::models::{DOUGH, DRESSED, OUTCOMES, SINGLES, TYPED};
use super::statements::starred;
use super::wrong::{wrong_words, BYTES};
use super::{escaped, Case};
use crate::gen::{self, Shape};
use crate::rng::Rng;
use reference::FILE_BYTES;

/// The files that are the same for every seed.
pub fn fixed() -> Vec<Case> {
    let mut cases = vec![
        Case::new("the dough model", DOUGH),
        Case::new("a dressed model", DRESSED),
        Case::new("the dough model as people type it", TYPED),
        Case::new("the dough model with a wrong row", DOUGH.replace("T: 0 : 1 0 1", "T: 0 : 1 0 0")),
        Case::new("the dough model with CR LF", DOUGH.replace('\n', "\r\n")),
        Case::new("the dough model with CR", DOUGH.replace('\n', "\r")),
        Case::new("the dough model with tabs", DOUGH.replace(' ', "\t")),
        Case::new("the dough model without spaces at colons", DOUGH.replace(" : ", ":").replace(": ", ":")),
        Case::new("the dough model on one line", DOUGH.replace('\n', " ")),
        Case::new("the dough model twice", format!("{}{}", DOUGH, DOUGH)),
        Case::new("the dough model with a mark in front", [b"\xef\xbb\xbf", DOUGH.as_bytes()].concat()),
    ];
    for (name, text) in [("dough", DOUGH), ("dressed", DRESSED), ("typed", TYPED)] {
        for length in 0..=text.len() {
            let file = &text.as_bytes()[..length];
            cases.push(Case::new(format!("the {} model cut at {}", name, length), file));
        }
    }
    cases.extend(each_word("the dough model", &split(DOUGH), 0));
    cases.extend(each_word("the model of singles", &split(SINGLES), 6));
    for at in 0..=DOUGH.len() {
        // A few bytes at each place; the kinds take turns.
        for turn in 0..4 {
            let byte = BYTES[(at * 7 + turn * 8) % BYTES.len()];
            let mut file = DOUGH.as_bytes().to_vec();
            file.insert(at, byte);
            cases.push(Case::new(format!("the dough model with byte {} put in at {}", byte, at), file));
            let mut file = DOUGH.as_bytes().to_vec();
            if at < file.len() {
                file[at] = byte;
                cases.push(Case::new(format!("the dough model with byte {} at {}", byte, at), file));
            }
        }
        let mut file = DOUGH.as_bytes().to_vec();
        if at < file.len() {
            file.remove(at);
            cases.push(Case::new(format!("the dough model without its byte at {}", at), file));
        }
    }
    for byte in 0..=255 {
        cases.push(Case::new(format!("byte {} alone", byte), [byte]));
        let mut file = b"discount: 0.9".to_vec();
        file.push(byte);
        file.extend_from_slice(&DOUGH.as_bytes()[14..]);
        cases.push(Case::new(format!("the dough model with byte {} after the discount", byte), file));
    }
    cases.extend(lengths());
    cases.extend(largest());
    cases
}

/// Each word of some lines, from one of them on, replaced by each of many, doubled, and swapped with the next.
fn each_word(name: &str, lines: &Lines, from: usize) -> Vec<Case> {
    let mut cases = Vec::new();
    for line in from..lines.len() {
        for at in 0..lines[line].len() {
            let place = format!("{}, line {}, word {}", name, line, at);
            for word in wrong_words() {
                cases.push(Case::new(format!("{}: {}", place, escaped(word)), plain(&replaced(lines, line, at, word))));
            }
            let mut doubled = lines.clone();
            doubled[line].insert(at, lines[line][at].clone());
            cases.push(Case::new(format!("{}: doubled", place), plain(&doubled)));
            if at + 1 < lines[line].len() {
                let mut swapped = lines.clone();
                swapped[line].swap(at, at + 1);
                cases.push(Case::new(format!("{}: swapped with the next", place), plain(&swapped)));
            }
        }
    }
    cases
}

/// The headers of a model with so many states, which starts in the first of them.
fn started(states: usize, actions: usize, observations: usize) -> String {
    let zeros = " 0".repeat(states.saturating_sub(1));
    let counts = format!("states: {} actions: {} observations: {}", states, actions, observations);
    format!("discount: 1 values: reward {} start: 1{}\n", counts, zeros)
}

/// A model with as many states, actions and observations as can be, and statements past its last indices or with totals that are
/// wrong; and models with as many states as can be or one less or one more.
fn largest() -> Vec<Case> {
    let rows = "T: * : * : 63 1 O: * : * : 7 1 R: 7 : 63 : * : * 1000\n";
    let statements = "
T: 8 : 0 : 0 1
T: 7 : 64 : 0 1
T: 7 : 63 : 64 1
T: 0 : 0 : 0 0.001
T: 7 : 63 : 62 0.001
O: 8 : 0 : 0 1
O: 7 : 64 : 0 1
O: 7 : 63 : 8 1
O: 0 : 0 : 6 0.001
O: 7 : 63 : 0 0.001
R: 8 : 0 : * : * 1
R: 0 : 64 : * : * 1";
    let file = |statement: &str| {
        let text = format!("{}{}{}", started(64, 8, 8), rows, statement);
        Case::new(format!("the largest model and {:?}", statement), text)
    };
    let mut cases: Vec<Case> = statements.lines().skip(1).map(file).collect();
    for states in [63, 64, 65] {
        let rows = format!("T: * : * : {} 1 O: * : * : 0 1 R: 0 : 62 : * : * 1000\n", states - 1);
        cases.push(Case::new(format!("{} states", states), started(states, 1, 1) + &rows));
    }
    cases
}

/// The fixed files, and wide ones whose levels take long to build: to be read alone.
pub fn fixed_to_read() -> Vec<Case> {
    fixed().into_iter().chain(wide()).collect()
}

/// Files with as many states as can be, that read.
fn wide() -> Vec<Case> {
    let rows = "T: * : * : 63 1 O: * : * : 7 1 R: 7 : 63 : * : * 1000\n";
    let last =
        "T: 7 : 63 : 63 0 T: 07 : 63 : 0 .25 T: 7 : 63 : 62 .75 O: 7 : 63 0 0 0 0 0 0 .5 .5 R: 7 : 62 : * : * -.01\n";
    let mut cases = vec![
        Case::new("the largest model", started(64, 8, 8) + rows),
        Case::new("the largest model and statements for its last cells", started(64, 8, 8) + rows + last),
    ];
    for number in 0..20 {
        let mut rng = Rng::for_case(0, "wide", number);
        let shape = if number % 2 == 0 { Shape::LARGEST } else { gen::wide_shape(&mut rng) };
        let lines = starred(&mut rng, shape);
        cases.push(Case::new(format!("a wide model, {:?}", shape), dressed(&mut rng, &lines)));
    }
    cases
}

/// Files at and past the longest.
fn lengths() -> Vec<Case> {
    let mut cases = Vec::new();
    let wrong_row = DOUGH.replace("T: 0 : 1 0 1", "T: 0 : 1 0 0");
    let cut = &DOUGH[..DOUGH.len() - 2];
    let extra = format!("{}x", DOUGH);
    for length in [FILE_BYTES - 1, FILE_BYTES, FILE_BYTES + 1, FILE_BYTES + 2, 40_000, 65_535, 65_536, 65_537, 300_000]
    {
        for (name, text) in [("whole", DOUGH), ("wrong row", &wrong_row), ("cut", cut), ("extra word", &extra)] {
            let about = |how: &str| format!("the dough model ({}) at {} bytes: {}", name, length, how);
            let missing = length - text.len();
            let spaces = vec![b' '; missing];
            let mut comment = vec![b'c'; missing];
            comment[0] = b'#';
            let mut comment_line = comment.clone();
            comment_line[missing - 1] = b'\n';
            cases.push(Case::new(about("spaces behind"), [text.as_bytes(), &spaces].concat()));
            cases.push(Case::new(about("spaces in front"), [&spaces, text.as_bytes()].concat()));
            cases.push(Case::new(about("a comment behind"), [text.as_bytes(), &comment].concat()));
            cases.push(Case::new(about("a comment in front"), [&comment_line, text.as_bytes()].concat()));
            let (first, second) = text.split_at(text.find("T:").unwrap_or(0));
            cases.push(Case::new(
                about("a comment inside"),
                [first.as_bytes(), &comment_line, second.as_bytes()].concat(),
            ));
        }
        for byte in [0, b' ', b'#', b':', b'0', b'x', 255] {
            cases.push(Case::new(format!("{} bytes {}", length, byte), vec![byte; length]));
        }
        // Statements over and over, the last one cut.
        let mut file = DOUGH.as_bytes().to_vec();
        let statements = &DOUGH.as_bytes()[DOUGH.find("T:").unwrap_or(0)..];
        while file.len() < length {
            let more = (length - file.len()).min(statements.len());
            file.extend_from_slice(&statements[..more]);
        }
        cases.push(Case::new(format!("statements up to {} bytes", length), file));
    }
    cases
}

/// Files to convert that are the same for every seed.
pub fn fixed_outcomes() -> Vec<Case> {
    let mut cases = vec![
        Case::new("the model of outcomes", OUTCOMES),
        Case::new("the dough model", DOUGH),
        Case::new("the dough model as people type it", TYPED),
        Case::new("a dressed model", DRESSED),
        Case::new("no rewards", OUTCOMES.split("R:").next().unwrap_or("")),
        Case::new(
            "rewards before T and O",
            OUTCOMES.replace("T: 0 : 0 0.5 0.5\n", "R: 0 : 0 : 0 : 0 1\nT: 0 : 0 0.5 0.5\n"),
        ),
        Case::new("T after the rewards", format!("{}T: 0 : * 0 1\n", OUTCOMES)),
        Case::new("O after the rewards", format!("{}O: 0 : * 1 0\n", OUTCOMES)),
    ];
    for length in 0..=OUTCOMES.len() {
        let about = format!("the model of outcomes cut at {}", length);
        cases.push(Case::new(about, &OUTCOMES.as_bytes()[..length]));
    }
    cases.extend(each_word("the model of outcomes", &split(OUTCOMES), 12));
    // 26 at each place, alone and with one behind it.
    for (action, state) in [(0, 0), (0, 1), (1, 0), (1, 1)] {
        let tick = |action: usize, state: usize| format!("R: {} : {} : * : 0 0.01\n", action, state);
        let one = format!("{}{}", OUTCOMES, tick(action, state));
        cases.push(Case::new(format!("26 at {}, {}", action, state), one.clone()));
        for (other, last) in [(0, 0), (0, 1), (1, 0), (1, 1)] {
            let both = format!("{}{}", one, tick(other, last));
            cases.push(Case::new(format!("26 at {}, {} and {}, {}", action, state, other, last), both));
        }
    }
    // 5, 6, 25 and 26 by the number of states.
    for states in [1, 15, 16, 17, 18, 63, 64, 65] {
        for (t, o, reward) in
            [("1", "1", "1"), ("1", "1", "0.01"), ("0.5", "1", "1"), ("1", "0.5", "1"), ("0.5", "0.5", "x")]
        {
            let rows = format!("T: * : * : 0 {} O: * : * : 0 {} O: * : 0 : 0 0.5 O: * : 0 : 1 0.5", t, o);
            let text = format!("{}{} R: 0 : * : 0 : 0 {}", started(states, 1, 2), rows, reward);
            cases.push(Case::new(format!("{} states, T {}, O {}, reward {}", states, t, o, reward), text));
        }
    }
    // The largest that is written, and every form of number.
    let largest =
        "T: * : * 0.063 0.063 0.063 0.063 0.063 0.063 0.063 0.063 0.062 0.062 0.062 0.062 0.062 0.062 0.062 0.062 \
                   O: * : * : * 0.125 R: * : * : * : * -1000";
    cases.push(Case::new("the largest model that is written", started(16, 8, 8) + largest));
    for reward in
        ["0", "-0", "0.01", "-0.01", "0.1", "-0.99", "1", "-1", "9.99", "10", "99.9", "-100", "999.99", "-1000", "1000"]
    {
        let text = format!("{}T: * : * 1 O: * : * 1 R: * : * : * : * {}", started(1, 1, 1), reward);
        cases.push(Case::new(format!("a reward of {}", reward), text));
    }
    for discount in ["0", "1", "0.001", "0.01", "0.1", "0.999", "0.09"] {
        let text = OUTCOMES.replacen("0.9", discount, 1);
        cases.push(Case::new(format!("a discount of {}", discount), text));
    }
    for length in [FILE_BYTES - 1, FILE_BYTES, FILE_BYTES + 1] {
        for (name, text) in [("whole", OUTCOMES.to_string()), ("extra word", format!("{}x", OUTCOMES))] {
            let mut file = text.into_bytes();
            file.resize(length, b' ');
            cases.push(Case::new(format!("the model of outcomes ({}) at {} bytes", name, length), file));
        }
    }
    cases
}
