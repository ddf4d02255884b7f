//! Each reading of a solver's files, upon a model of two states, two actions and two observations.

use crate::*;

const MODEL: &str =
    "discount: 0.5 values: reward states: 2 actions: 2 observations: 2 start: 0.5 0.5 T: * : * 0.5 0.5 \
                     O: * : * 0.5 0.5 R: 0 : * : * : * -1 R: 1 : 0 : * : * -10 R: 1 : 1 : * : * 6.01 ";
/// Two vectors, and their nodes at the first level.
const ALPHA: &str = "0\n-1.000 -1.000\n\n1\n-10.0 6.01\n\n";
const GRAPH: &str = "0 0  - -\n1 1  - -\n";

fn fresh() -> Certifier {
    open(&read(MODEL.as_bytes(), &DOCUMENT).unwrap().tables, &DOCUMENT).unwrap()
}

/// The certifier after the two vectors were accepted.
fn raised() -> Certifier {
    let mut certifier = fresh();
    let level = adopt(&certifier, ALPHA.as_bytes(), GRAPH.as_bytes(), &Points::none(), &DOCUMENT).unwrap();
    offer(&mut certifier, &level, &DOCUMENT).unwrap();
    certifier
}

fn half() -> Points {
    Points::one(&[50, 50])
}

/// The level, or the refusal as number and place. Every level that is made is accepted.
fn made(certifier: &Certifier, alpha: &str, graph: &str, points: &Points) -> Result<Level, (u8, u64)> {
    let level = adopt(certifier, alpha.as_bytes(), graph.as_bytes(), points, &DOCUMENT);
    if let Ok(level) = &level {
        offer(&mut certifier.clone(), level, &DOCUMENT).unwrap();
    }
    level.map_err(|refusal| (refusal.number, refusal.place))
}

fn refused(certifier: &Certifier, alpha: &str, graph: &str) -> Option<(u8, u64)> {
    made(certifier, alpha, graph, &half()).err()
}

/// The entries of a level of one vector with action 0, with these decimals.
fn entries(certifier: &Certifier, decimals: &str) -> Result<Vec<i64>, (u8, u64)> {
    let next = if certifier.level == 0 { "- -" } else { "1 1" };
    let level = made(certifier, &format!("0 {}", decimals), &format!("0 0 {}", next), &half())?;
    Ok(level.entries[..2].to_vec())
}

#[test]
fn the_level_is_the_files_with_the_builders_ceiling() {
    let level = made(&fresh(), ALPHA, GRAPH, &half()).unwrap();
    assert_eq!((level.vectors, level.points), (2, 1));
    assert_eq!((&level.actions[..2], &level.choices[..4]), (&[0, 1][..], &[0, 0, 0, 0][..]));
    assert_eq!(level.entries[..4], [-100, -100, -1_000, 601]);
    let built = build(&fresh(), &half(), &DOCUMENT).unwrap();
    assert_eq!((level.corners, level.weights, level.values), (built.corners, built.weights, built.values));
    // The order is the files'.
    let level = made(&raised(), "1 0 0 0 0 0 1 0 0", "0 1 0 1 1 0 1 0 2 1 1 1", &Points::none()).unwrap();
    assert_eq!((&level.actions[..3], &level.choices[..6]), (&[1, 0, 1][..], &[0, 1, 1, 0, 1, 1][..]));
}

#[test]
fn an_entry_is_the_lesser_of_decimal_and_backup() {
    assert_eq!(entries(&fresh(), "-1 -1"), Ok(vec![-100, -100]));
    assert_eq!(entries(&fresh(), "0 -0.99"), Ok(vec![-100, -100]));
    assert_eq!(entries(&fresh(), "-1.01 -7"), Ok(vec![-101, -700]));
    // Upon the second vector (-1000, 601) twice: -100 + 0.5 x -199.5 = -199.75, rounded down.
    assert_eq!(entries(&raised(), "999999 -1.9975"), Ok(vec![-200, -200]));
    assert_eq!(entries(&raised(), "-2 -2.001"), Ok(vec![-200, -201]));
}

#[test]
fn decimals_are_rounded_down() {
    assert_eq!(entries(&fresh(), "-1.001 -1.009999999999"), Ok(vec![-101, -101]));
    assert_eq!(entries(&fresh(), "-1.010 -001.01"), Ok(vec![-101, -101]));
    // A model without rewards: the backup is 0.
    let mut certifier = fresh();
    certifier.tables.rewards.fill(0);
    assert_eq!(entries(&certifier, "-0.001 -0"), Ok(vec![-1, 0]));
    assert_eq!(entries(&certifier, "-0.000000000001 -000000.000000000000"), Ok(vec![-1, 0]));
    assert_eq!(entries(&certifier, "0.009 -0.01"), Ok(vec![0, -1]));
}

#[test]
fn forms_of_decimals() {
    for good in ["0", "000000", "-0", "-999999.999999999999", "5.5", "123456.7"] {
        assert_ne!(entries(&fresh(), &format!("{} 0", good)).err().map(|at| at.0), Some(19), "{}", good);
    }
    let bad = [".5", "5.", "1234567", "0.1234567890123", "+1", "--1", "1e0", "1.0.0", "-", "-.5", "*", ":", "1,5", "x"];
    for word in bad {
        assert_eq!(entries(&fresh(), &format!("0 {} 0", word)), Err((19, 4)), "{}", word);
    }
}

#[test]
fn places_of_words() {
    let fresh = fresh();
    // A missing word gets 19 at the file's length.
    assert_eq!(refused(&fresh, "0 1", GRAPH), Some((19, 3)));
    assert_eq!(refused(&fresh, "0 1  # x", GRAPH), Some((19, 8)));
    assert_eq!(refused(&fresh, "0", GRAPH), Some((19, 1)));
    assert_eq!(refused(&fresh, "0 1 1", "0"), Some((19, 1)));
    assert_eq!(refused(&fresh, "0 1 1", "0 0 -\n"), Some((19, 6)));
    // The words of the graph.
    assert_eq!(refused(&fresh, "0 1 1", "- 0 - -"), Some((19, 0)));
    assert_eq!(refused(&fresh, "0 1 1", "0 - - -"), Some((19, 2)));
    assert_eq!(refused(&fresh, "0 1 1", "0 0 -- -"), Some((19, 4)));
    assert_eq!(refused(&fresh, "0 1 1", "0 0 - X"), Some((19, 6)));
    assert_eq!(refused(&fresh, "0 1 1", "0 0 - *"), Some((19, 6)));
    assert_eq!(refused(&fresh, "0 1 1", "0: 0 - -"), Some((19, 1)));
    assert_eq!(refused(&fresh, "0 1 1", "0 0 - -0"), Some((19, 6)));
    // Comments and spaces are as in the model file.
    assert_eq!(refused(&fresh, "#1\n0\t-1#:\r\n-1\r", " 0 0 #\n- - # 1"), None);
    assert_eq!(refused(&fresh, "0 -1 -1 # a\r1 : 2", "0 0 - -"), None);
    assert_eq!(refused(&fresh, "0 -1 \x0b-1", "0 0 - -"), Some((19, 5)));
}

#[test]
fn nodes_are_numbered_in_order() {
    let fresh = fresh();
    assert_eq!(refused(&fresh, ALPHA, "1 0 - - 0 1 - -"), Some((19, 0)));
    assert_eq!(refused(&fresh, ALPHA, "0 0 - - 0 1 - -"), Some((19, 8)));
    assert_eq!(refused(&fresh, ALPHA, "0 0 - - 2 1 - -"), Some((19, 8)));
    assert_eq!(refused(&fresh, ALPHA, "000 0 - - 01 1 - -"), None);
    assert_eq!(refused(&fresh, ALPHA, "0000 0 - - 1 1 - -"), Some((19, 0)));
    assert_eq!(refused(&fresh, ALPHA, "0 0 - - 1 1 0000 -"), Some((19, 12)));
    assert_eq!(refused(&fresh, ALPHA, "0 0 000 - 1 1 00 -"), None);
}

#[test]
fn actions_have_one_or_two_digits() {
    let fresh = fresh();
    assert_eq!(refused(&fresh, "00 -1 -1", "0 0 - -"), None);
    assert_eq!(refused(&fresh, "000 -1 -1", "0 0 - -"), Some((19, 0)));
    assert_eq!(refused(&fresh, "0 -1 -1", "0 000 - -"), Some((19, 2)));
    assert_eq!(refused(&fresh, "0.0 -1 -1", "0 0 - -"), Some((19, 0)));
    // One that does not exist fits the form, and gets 10 after 20.
    assert_eq!(refused(&fresh, "2 -1 -1", "0 2 - -"), Some((10, 0)));
    assert_eq!(refused(&fresh, "2 -1 -1", "0 3 - -"), Some((20, 0)));
    assert_eq!(refused(&fresh, "0 -1 -1 99 0 0", "0 0 - - 1 99 - -"), Some((10, 1)));
}

#[test]
fn hyphens_and_next_nodes() {
    let (fresh, raised) = (fresh(), raised());
    assert_eq!(refused(&fresh, ALPHA, "0 0 - 0 1 1 0 -"), None);
    assert_eq!(refused(&fresh, ALPHA, "0 0 - - 1 1 1 -"), Some((10, 1)));
    assert_eq!(refused(&raised, ALPHA, "0 0 0 1 1 1 1 0"), None);
    assert_eq!(refused(&raised, ALPHA, "0 0 0 1 1 1 1 2"), Some((10, 1)));
    assert_eq!(refused(&raised, ALPHA, "0 0 0 1 1 1 - 0"), Some((10, 1)));
    assert_eq!(refused(&raised, ALPHA, GRAPH), Some((10, 0)));
}

#[test]
fn the_alpha_file_comes_wholly_first() {
    let fresh = fresh();
    assert_eq!(refused(&fresh, "0 -1 -1 x", "x"), Some((19, 8)));
    assert_eq!(refused(&fresh, "0 -1 -1", "x"), Some((19, 0)));
    // 19 before 20, both before 10.
    assert_eq!(refused(&fresh, ALPHA, "0 1 - - 1 0 - - x"), Some((19, 16)));
    assert_eq!(refused(&fresh, ALPHA, "0 1 7 -"), Some((20, 0)));
}

#[test]
fn empty_files() {
    let fresh = fresh();
    assert_eq!(refused(&fresh, "", ""), Some((9, 0)));
    assert_eq!(refused(&fresh, " # 1\n", "\n"), Some((9, 0)));
    assert_eq!(refused(&fresh, ALPHA, ""), Some((20, 0)));
    assert_eq!(refused(&fresh, "", GRAPH), Some((20, 0)));
}

/// So many vectors, and nodes of so many digits.
fn many(count: usize) -> (String, String) {
    let node = |at: usize| format!("{} 0 - -\n", at);
    ("0 -1 -1\n".repeat(count), (0..count).map(node).collect())
}

#[test]
fn more_vectors_than_fit_are_read_to_the_end() {
    let fresh = fresh();
    for count in [32, 33, 100, 999, 1_000] {
        let (alpha, graph) = many(count);
        assert_eq!(made(&fresh, &alpha, &graph, &half()).map(|level| level.vectors), Ok(count as u64));
    }
    // The thousand and first node has no three digits.
    let (alpha, graph) = many(1_001);
    assert_eq!(refused(&fresh, &alpha, &graph), Some((19, graph.len() as u64 - 11)));
    assert_eq!(refused(&fresh, &(alpha.clone() + "x"), &graph), Some((19, alpha.len() as u64)));
    assert_eq!(refused(&fresh, &alpha, &many(1_000).1), Some((20, 0)));
    assert_eq!(refused(&fresh, &alpha, &(many(1_000).1 + "x")), Some((19, many(1_000).1.len() as u64)));
}

#[test]
fn lengths_come_first() {
    let padded = |text: &str, length: usize| format!("{}{}", text, " ".repeat(length - text.len()));
    let mut fresh = fresh();
    assert_eq!(refused(&fresh, &padded(ALPHA, FILE_BYTES + 1), &padded(GRAPH, FILE_BYTES + 1)), None);
    assert_eq!(refused(&fresh, &padded(ALPHA, SOLVER_BYTES), &padded(GRAPH, SOLVER_BYTES)), None);
    assert_eq!(refused(&fresh, &padded("x", SOLVER_BYTES + 1), "x"), Some((1, 0)));
    assert_eq!(refused(&fresh, "x", &padded("x", SOLVER_BYTES + 1)), Some((1, 0)));
    fresh.level = 101;
    assert_eq!(refused(&fresh, &padded("x", SOLVER_BYTES + 1), "x"), Some((1, 0)));
    assert_eq!(refused(&fresh, "x", "x"), Some((7, 0)));
}

#[test]
fn the_order_of_the_rest() {
    let mut certifier = fresh();
    certifier.level = 100;
    assert_eq!(refused(&certifier, "x", ""), Some((19, 0)));
    assert_eq!(refused(&certifier, ALPHA, ""), Some((20, 0)));
    assert_eq!(refused(&certifier, "", ""), Some((8, 0)));
    let fresh = fresh();
    // 9, then 10, then 11, then 12.
    let many = Points { count: 17, weights: vec![1; 17 * STATES] };
    let none = Points { count: 1, ..Points::none() };
    let refusal = |alpha: &str, graph: &str, points: &Points| made(&fresh, alpha, graph, points).err();
    assert_eq!(refusal("7 -9999 0", "0 7 - -", &many), Some((9, 0)));
    assert_eq!(refusal("0 -9999 0 0 -1 -1", "0 0 - - 1 0 7 -", &none), Some((10, 1)));
    assert_eq!(refusal("0 -1 -1 0 -1 -9999", "0 0 - - 1 0 - -", &none), Some((11, 1)));
    assert_eq!(refusal("0 -1 -1", "0 0 - -", &none), Some((12, 0)));
}

#[test]
fn entries_below_their_range() {
    let (fresh, raised) = (fresh(), raised());
    assert_eq!(entries(&fresh, "-1000 0"), Ok(vec![-100_000, -100]));
    assert_eq!(entries(&fresh, "-1000.000000000001 0"), Err((11, 0)));
    assert_eq!(entries(&raised, "-2000 0"), Ok(vec![-200_000, -200]));
    assert_eq!(entries(&raised, "0 -2000.01"), Err((11, 0)));
}

#[test]
fn a_refusal_of_the_certifier() {
    let mut certifier = fresh();
    certifier.standing.corners[0] = 1;
    assert_eq!(refused(&certifier, "x", "x"), Some((7, 0)));
    // Its choices are not read.
    let mut certifier = raised();
    certifier.standing.choices.fill(u64::MAX);
    assert_eq!(refused(&certifier, ALPHA, "0 0 0 1 1 1 1 0"), None);
    // At level 0 any zero vectors may stand: next nodes are tested against their number.
    let mut certifier = fresh();
    certifier.standing = Level::zeros(2, 0, 2, 2);
    assert_eq!(refused(&certifier, ALPHA, "0 0 - 1 1 1 1 0"), None);
    assert_eq!(refused(&certifier, ALPHA, "0 0 - 2 1 1 1 0"), Some((10, 0)));
}
