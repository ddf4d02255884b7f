//! Places and forms of words in files that differ in little from one that reads.

use crate::*;

/// Two states, one action, one observation.
const HEADER: &str = "discount: 0.9 values: reward states: 2 actions: 1 observations: 1 start: 0.5 0.5 ";
const ROWS: &str = "T: 0 : * 1 0 O: * : * 1 ";

/// The refusal of a file, as number and place.
fn refused(file: &[u8]) -> Option<(u8, u64)> {
    read(file, &Rules::default()).err().map(|refusal| (refusal.number, refusal.place))
}

/// The refusal of a file that begins with the header, with its place counted from the header's end.
fn after_header(rest: &str) -> Option<(u8, i64)> {
    let file = format!("{}{}", HEADER, rest);
    refused(file.as_bytes()).map(|(number, place)| (number, place as i64 - HEADER.len() as i64))
}

/// The refusal of a file whose statements are whole and whose header has one part replaced, with its place counted from
/// that part.
fn in_header(part: &str, by: &str) -> Option<(u8, i64)> {
    let file = format!("{}{}", HEADER, ROWS).replacen(part, by, 1);
    let at = HEADER.find(part).unwrap() as i64;
    refused(file.as_bytes()).map(|(number, place)| (number, place as i64 - at))
}

#[test]
fn it_reads() {
    assert_eq!(after_header(ROWS), None);
    assert_eq!(after_header("T:0:*:0 1 O:*:*:0 1.000#"), None);
    assert_eq!(after_header("T : * : * : * 0.5\r\nO\t:0:00 1#0\r\n# \u{ff} : * \nO:0:01 1,"), Some((2, 49)));
}

#[test]
fn missing_words_have_the_files_length() {
    assert_eq!(refused(b""), Some((2, 0)));
    assert_eq!(refused(b"  # nothing"), Some((2, 11)));
    assert_eq!(refused(b"discount: 0.9 \n# x\n\n"), Some((2, 20)));
    assert_eq!(after_header("T: 0 : 0 1"), Some((2, 10)));
    assert_eq!(after_header("T: 0 : 0 1  "), Some((2, 12)));
}

#[test]
fn only_four_bytes_part_words() {
    assert_eq!(refused(b"discount: \x0b0.9"), Some((2, 10)));
    assert_eq!(refused(b"discount: \x000.9"), Some((2, 10)));
    assert_eq!(refused(b"\xef\xbb\xbfdiscount: 0.9"), Some((2, 0)));
    assert_eq!(refused(b"\t\r\n discount: 2"), Some((3, 14)));
}

#[test]
fn a_comment_ends_at_lf_alone() {
    assert_eq!(refused(b"discount: 0.9 # a\rvalues: reward"), Some((2, 32)));
    assert_eq!(refused(b"discount: 0.9#:*\nvalues#\n: cost"), Some((2, 27)));
}

#[test]
fn a_colon_is_a_word() {
    assert_eq!(refused(b"discount:: 0.9"), Some((2, 9)));
    assert_eq!(refused(b"discount= 0.9"), Some((2, 0)));
    assert_eq!(after_header("T: 0 : 0 : 0 : 0.5"), Some((2, 13)));
    assert_eq!(after_header("T: 0 1 0"), Some((2, 5)));
}

#[test]
fn lengths() {
    let mut file = format!("{}{}", HEADER, ROWS).into_bytes();
    file.resize(FILE_BYTES, b' ');
    assert_eq!(refused(&file), None);
    file.push(b' ');
    assert_eq!(refused(&file), Some((1, 0)));
}

#[test]
fn the_header_comes_once_and_in_order() {
    assert_eq!(in_header("reward", "cost"), Some((2, 0)));
    assert_eq!(in_header("states: 2", "states: 2 3"), Some((2, 10)));
    assert_eq!(in_header("start: 0.5 0.5", "start: uniform"), Some((2, 7)));
    assert_eq!(in_header("start: 0.5 0.5", "start: 0.5 0.5 0"), Some((2, 15)));
    assert_eq!(in_header("start: 0.5 0.5", "start: 0.5"), Some((2, 11)));
    assert_eq!(after_header("T: 0 : * 1 0 discount: 1"), Some((2, 13)));
}

#[test]
fn totals_come_last_and_in_order() {
    let length = |rest: &str| rest.len() as i64;
    assert_eq!(after_header(""), Some((5, 0)));
    assert_eq!(in_header("0.5 0.5 ", "0.5 0.4 "), Some((4, 8 + length(ROWS))));
    let rest = "T: 0 : * 1 1 O: * : * 0.5 R: 0 : 2";
    assert_eq!(after_header(rest), Some((3, 33)));
    let rest = "T: 0 : * 1 1 O: * : * 0.5";
    assert_eq!(after_header(rest), Some((5, length(rest))));
    let rest = "T: 0 : * 1 1 O: * : * 0.5 T: * : * 0 1";
    assert_eq!(after_header(rest), Some((6, length(rest))));
}

#[test]
fn counts_and_indices_have_one_or_two_digits() {
    assert_eq!(in_header("2 actions", "02 actions"), None);
    for count in ["0", "00", "65", "99"] {
        assert_eq!(in_header("2 actions", &format!("{} actions", count)), Some((3, 0)));
    }
    for count in ["002", "100", "-1", "+2", "2.0", "2.", "2e0", "*", "two"] {
        assert_eq!(in_header("2 actions", &format!("{} actions", count)), Some((2, 0)));
    }
    assert_eq!(after_header("T: 01"), Some((3, 3)));
    assert_eq!(after_header("T: 001"), Some((2, 3)));
    assert_eq!(after_header("T: -0"), Some((2, 3)));
    assert_eq!(after_header("T: 0."), Some((2, 3)));
    assert_eq!(after_header("T: 0e0"), Some((2, 3)));
    assert_eq!(after_header("T: **"), Some((2, 3)));
}

#[test]
fn probabilities() {
    let plain = ["1", "0", "1.0", "0.125", "1.000"];
    let typed =
        [".5", "1.", "5e-1", "1e0", "1e-0", "1.e-3", ".5e0", ".001e3", "0e-3", "0.e3", ".0", "1.25e-1", "9.99e-1"];
    for good in plain.iter().chain(&typed) {
        assert_eq!(after_header(&format!("T: 0 : 0 : 0 {} ?", good)), Some((2, 14 + good.len() as i64)));
    }
    let plain = ["10", "00", "01", "1.0000", "0.5000", "-0", "-0.5", "+1", "*", "0,5"];
    let parts = [".", "e1", ".e1", "-.", "-.5", "1e", "1e-", "e", "1e.", "1..", ".5.", "1e1.", "1e0e0"];
    let powers = ["1e4", "1e00", "1e-4", "1e+0", "1E0", "1e--0", "1e-00", "10e-1", ".5000e1", "1.5e-3", ".001e-1"];
    for bad in plain.iter().chain(&parts).chain(&powers) {
        assert_eq!(after_header(&format!("T: 0 : 0 : 0 {}", bad)), Some((2, 13)), "{}", bad);
    }
    for large in ["2", "1.001", "9.999", "2.", "1e3", "1.e1", ".11e1", "2e0"] {
        assert_eq!(after_header(&format!("T: 0 : 0 : 0 {}", large)), Some((3, 13)), "{}", large);
    }
    for start in ["0.500", "0.125", ".125e1", "1e-3", ".05e-1"] {
        assert_eq!(in_header("0.5 0.5 ", &format!("{} 0.5 ", start)), Some((2, 0)));
    }
    for start in [".5", ".50", "5e-1", ".05e1", "5.e-1"] {
        assert_eq!(in_header("0.5 0.5 ", &format!("{} 0.5 ", start)), None);
    }
}

#[test]
fn rewards() {
    let reward = |word: &str| {
        let file = format!("{}{}R: 0 : 0 : * : * {}", HEADER, ROWS, word);
        let place = (file.len() - word.len()) as u64;
        read(file.as_bytes(), &Rules::default()).map(|reading| reading.tables.rewards[0]).map_err(|refusal| {
            assert_eq!(refusal.place, place);
            refusal.number
        })
    };
    for (word, ticks) in [("-0", 0), ("0001", 100), ("-0000", 0), ("-1000.00", -100_000), ("999.9", 99_990)] {
        assert_eq!(reward(word), Ok(ticks));
    }
    for (word, ticks) in [("5.", 500), ("-.5", -50), ("-1e3", -100_000), ("1000e-3", 100), ("-12.5e1", -12_500)] {
        assert_eq!(reward(word), Ok(ticks));
    }
    for word in ["00001", "10000", "--1", "-", "+1", "1.000", "-.", "-e1", "e", "1e-3", "10000e-1", "0.01e-1", "-1e4"] {
        assert_eq!(reward(word), Err(2), "{}", word);
    }
    for word in ["1001", "1000.01", "-1000.01", "9999.99", "1001e0", "-2e3", "9999e3"] {
        assert_eq!(reward(word), Err(3), "{}", word);
    }
    assert_eq!(after_header("R: 0 : 0 : 0 : * 1"), Some((2, 11)));
    assert_eq!(after_header("R: 0 : 0 : * : 99 1"), Some((2, 15)));
}

#[test]
fn later_statements_supersede() {
    let file = format!("{}T: * : * 0 1 T: 0 : 1 : * 0.5 T: 0 : 0 : 0 0 O: * : * : 0 1", HEADER);
    let tables = read(file.as_bytes(), &Rules::default()).unwrap().tables;
    assert_eq!(tables.transitions[..4], [0, 1000, 500, 500]);
}

#[test]
fn tables_that_are_handed_in() {
    let file = format!("{}{}", HEADER, ROWS);
    let tables = read(file.as_bytes(), &Rules::default()).unwrap().tables;
    let opened = |change: &dyn Fn(&mut Tables)| {
        let mut tables = tables.clone();
        change(&mut tables);
        open(&tables, &Rules::default()).map_err(|refusal| (refusal.number, refusal.place))
    };
    let three = Err((3, 0));
    assert_eq!(opened(&|tables| tables.states = u64::MAX), three);
    assert_eq!(opened(&|tables| tables.discount = 1_001), three);
    assert_eq!(opened(&|tables| tables.transitions[0] = 1_001), three);
    assert_eq!(opened(&|tables| tables.rewards[1] = -100_001), three);
    assert_eq!(opened(&|tables| tables.transitions[3] = 1), Err((5, 1)));
    assert_eq!(opened(&|tables| tables.sights[1] = 999), Err((6, 1)));
    let garbage = opened(&|tables| tables.transitions.push(u64::MAX)).unwrap();
    assert_eq!(garbage.tables, tables);
    // What is too short for its counts.
    assert_eq!(opened(&|tables| tables.transitions.truncate(3)), three);
    assert_eq!(opened(&|tables| tables.sights.truncate(1)), three);
    assert_eq!(opened(&|tables| tables.rewards.truncate(1)), three);
    assert_eq!(opened(&|tables| tables.states = 64), three);
    let wide = |states: u64| {
        let mut tables = Tables::zeros(states, 1, 1);
        tables.transitions.iter_mut().step_by(states as usize).for_each(|cell| *cell = 1_000);
        tables.sights.fill(1_000);
        open(&tables, &Rules::default()).map(|opened| opened.standing.masks).map_err(|refusal| refusal.number)
    };
    assert_eq!((wide(63), wide(64), wide(65)), (Ok(vec![u64::MAX >> 1]), Ok(vec![u64::MAX]), Err(3)));
}

/// A file whose tables have no room is refused once its counts are read: after the words before, and before the start line.
#[test]
fn slices_without_room() {
    let refused = |file: &str| {
        let answer = read_into(file.as_bytes(), |tables| tables.cells_used() != (4, 2, 2), &Rules::default());
        answer.err().map(|refusal| (refusal.number, refusal.place))
    };
    let whole = format!("{}{}", HEADER, ROWS);
    assert_eq!(refused(&whole), Some((3, 0)));
    assert_eq!(refused(&whole.replacen("observations: 1", "observations: 2", 1)), Some((2, whole.len() as u64)));
    assert_eq!(refused(&whole.replacen("reward", "cost", 1)), Some((2, 22)));
    assert_eq!(refused(&whole.replacen("observations: 1", "observations: 9", 1)), Some((3, 64)));
    assert_eq!(refused(&whole.replacen("start", "begin", 1)), Some((3, 0)));
    assert_eq!(refused(&whole.replacen("0.5 0.5", "0.5 0.4", 1)), Some((3, 0)));
    assert_eq!(refused(&" ".repeat(FILE_BYTES + 1)), Some((1, 0)));
}

#[test]
fn certifiers_that_are_handed_in() {
    let rules = Rules::default();
    let file = format!("{}{}", HEADER, ROWS);
    let fresh = open(&read(file.as_bytes(), &rules).unwrap().tables, &rules).unwrap();
    let offered = |change: &dyn Fn(&mut Certifier)| {
        let mut certifier = fresh.clone();
        change(&mut certifier);
        let level = build(&certifier, &Points::none(), &rules).map_err(|refusal| refusal.number)?;
        offer(&mut certifier, &level, &rules).map_err(|refusal| refusal.number)
    };
    assert_eq!(offered(&|_| {}), Ok(()));
    assert_eq!(offered(&|certifier| certifier.level = 101), Err(7));
    assert_eq!(offered(&|certifier| certifier.level = u64::MAX), Err(7));
    assert_eq!(offered(&|certifier| certifier.level = 100), Err(8));
    assert_eq!(offered(&|certifier| certifier.level = 99), Ok(()));
    assert_eq!(offered(&|certifier| certifier.standing.corners[0] = 1), Err(7));
    assert_eq!(offered(&|certifier| certifier.standing.choices[0] = u64::MAX), Ok(()));
    let (n, k) = (fresh.tables.states as usize, fresh.tables.observations as usize);
    for (vectors, answer) in [(2, Ok(())), (1_000, Ok(())), (1_001, Err(7))] {
        assert_eq!(offered(&|certifier| certifier.standing = Level::zeros(vectors, 0, n, k)), answer);
    }
    // What is too short for its counts; choices are not asked for.
    assert_eq!(offered(&|certifier| certifier.standing.vectors = 2), Err(7));
    assert_eq!(offered(&|certifier| certifier.standing.entries.truncate(n - 1)), Err(7));
    assert_eq!(offered(&|certifier| certifier.standing.choices.clear()), Ok(()));
    let with_point = |weights: [u64; 2]| {
        offered(&|certifier| {
            certifier.standing = Level::zeros(1, 1, n, k);
            certifier.standing.weights.copy_from_slice(&weights);
        })
    };
    assert_eq!(with_point([0, 0]), Err(7));
    assert_eq!(with_point([99, 1]), Ok(()));
    assert_eq!(with_point([u64::MAX, 101]), Err(7));
}

#[test]
fn levels_of_many_vectors() {
    let rules = Rules::default();
    let file = format!("{}{}", HEADER, ROWS);
    let fresh = open(&read(file.as_bytes(), &rules).unwrap().tables, &rules).unwrap();
    let (n, k) = (fresh.tables.states as usize, fresh.tables.observations as usize);
    let offered = |vectors: usize, change: &dyn Fn(&mut Level)| {
        let (mut certifier, mut level) = (fresh.clone(), Level::zeros(vectors, 0, n, k));
        level.entries.fill(-100_000);
        level.corners.fill(100_000);
        change(&mut level);
        offer(&mut certifier, &level, &rules).map_err(|refusal| (refusal.number, refusal.place))
    };
    for vectors in [1, 32, 33, 255, 256, 999, 1_000] {
        assert_eq!(offered(vectors, &|_| {}), Ok(()));
    }
    assert_eq!(offered(0, &|_| {}), Err((9, 0)));
    assert_eq!(offered(1_001, &|_| {}), Err((9, 0)));
    assert_eq!(offered(1_000, &|level| level.vectors = u64::MAX), Err((9, 0)));
    assert_eq!(offered(1_000, &|level| level.entries.truncate(1_000 * n - 1)), Err((9, 0)));
    assert_eq!(offered(1_000, &|level| level.choices.truncate(1_000 * k - 1)), Err((9, 0)));
    assert_eq!(offered(1_000, &|level| level.choices[1_000 * k - 1] = 1), Err((10, 999)));
    assert_eq!(offered(1_000, &|level| level.entries[1_000 * n - 1] -= 1), Err((11, 999)));
    assert_eq!(offered(1_000, &|level| level.entries[1_000 * n - 1] = 100_000), Err((13, 999)));
}
