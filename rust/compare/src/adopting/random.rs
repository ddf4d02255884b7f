//! Random cases, most of them damaged.

use super::{at_step, replaced, spans, Case, BOTH, WORDS};
use crate::gen::{self, Shape, DOCUMENT, FEW};
use crate::rng::Rng;
use crate::solved;
use reference::{Certifier, Points, FILE_BYTES, SOLVER_BYTES, STATES, VECTORS};

/// A random case: files of a solver or written at random, most of them with one damage, upon a certifier that was climbed to
/// or holds anything.
pub fn random(rng: &mut Rng) -> Case {
    let mut case = if rng.once_in(3) { stepped(rng) } else { written(rng) };
    let n = (case.certifier.tables.states as usize).clamp(1, STATES);
    if rng.once_in(6) {
        gen::spoil_points(rng, n, &mut case.points);
    }
    if rng.once_in(20) {
        case.certifier.level = rng.pick(&[0, 1, 99, 100, 101, u64::MAX]);
    }
    for _ in 0..rng.pick(&[0, 0, 1, 1, 1, 2]) {
        damage(rng, &mut case);
    }
    case
}

/// The files of a step upon a random model.
fn stepped(rng: &mut Rng) -> Case {
    let climb = solved::random(rng);
    if climb.steps.is_empty() {
        return written(rng);
    }
    let below = rng.index(climb.steps.len());
    let step = if rng.once_in(4) { rng.index(climb.steps.len()) } else { below };
    at_step(&climb, below, step)
}

/// A certifier, and files for it with any actions and next nodes, and decimals about their backups.
fn written(rng: &mut Rng) -> Case {
    let shape = gen::shape(rng);
    let certifier = if rng.once_in(3) { gen::handed(rng, shape).0 } else { climbed(rng, shape) };
    let count = rng.index(4);
    let points = gen::points(rng, shape.n, count);
    let vectors = rng.pick(&[0, 1, 1, 2, 3, 4, 5, 32, FEW]);
    let far = rng.once_in(8);
    let below = certifier.standing.vectors.clamp(1, VECTORS as u64);
    let mut heads = Vec::new();
    let mut graph = Vec::new();
    for at in 0..vectors {
        let action = if rng.once_in(60) { shape.m as u64 } else { rng.below(shape.m as u64) };
        heads.push(if rng.once_in(8) { format!("{:02}", action) } else { action.to_string() });
        let mut words = vec![if rng.once_in(8) { format!("{:03}", at) } else { at.to_string() }, action.to_string()];
        for _ in 0..shape.k {
            let hyphen = rng.once_in(if certifier.level == 0 { 2 } else { 60 });
            let next = if rng.once_in(60) { rng.pick(&[below, 31, 32, 999]) } else { rng.below(below) };
            words.push(if hyphen { "-".to_string() } else { next.to_string() });
        }
        graph.extend(words);
    }
    let alpha = |decimals: &[String]| -> Vec<String> {
        let rows = heads.iter().zip(decimals.chunks(shape.n));
        rows.flat_map(|(head, row)| [&[head.clone()], row].concat()).collect()
    };
    // With decimals above all backups the level shows the backups.
    let high = vec!["999999".to_string(); vectors * shape.n];
    let (above, nodes) = (alpha(&high).join(" "), graph.join(" "));
    let made = reference::adopt(&certifier, above.as_bytes(), nodes.as_bytes(), &Points::none(), &DOCUMENT);
    let backups = made.map_or(vec![-100; vectors * shape.n], |level| level.entries[..vectors * shape.n].to_vec());
    let decimals: Vec<String> = backups.iter().map(|&backup| decimal(rng, backup, far)).collect();
    let about = "written at random".to_string();
    let (alpha, graph) = (dressed(rng, &alpha(&decimals)), dressed(rng, &graph));
    Case { about, certifier, alpha, graph, points }
}

/// A certifier after some built levels, now and then with vectors that leave out states.
fn climbed(rng: &mut Rng, shape: Shape) -> Certifier {
    let mut certifier = gen::climbed(rng, shape);
    if rng.once_in(3) {
        gen::uncover(rng, &mut certifier, shape);
    }
    certifier
}

/// A decimal about some ticks: at them, a part of a tick or some ticks off, or anywhere.
fn decimal(rng: &mut Rng, ticks: i64, far: bool) -> String {
    let off = if far { rng.within(-3_000_000, 3_000_000) } else { rng.pick(&[-200, -2, -1, 0, 0, 0, 1, 2, 200]) };
    let ticks = ticks + off;
    let minus = if ticks < 0 || (ticks == 0 && rng.once_in(4)) { "-" } else { "" };
    let (whole, hundredths) = (ticks.unsigned_abs() / 100, ticks.unsigned_abs() % 100);
    let more: String = (0..rng.pick(&[0, 0, 1, 4, 10])).map(|_| rng.pick(&['0', '0', '1', '5', '9'])).collect();
    match rng.below(8) {
        0 if hundredths == 0 => format!("{}{}", minus, whole),
        1 if whole < 100_000 => format!("{}{:06}.{:02}{}", minus, whole, hundredths, more),
        _ => format!("{}{}.{:02}{}", minus, whole, hundredths, more),
    }
}

/// Words parted in any way that parts words.
fn dressed(rng: &mut Rng, words: &[String]) -> Vec<u8> {
    let mut text = String::new();
    for word in words {
        text.push_str(word);
        text.push_str(rng.pick(&[" ", " ", " ", "\n", "\t", "\r\n", "  ", " \n\n", "#1 x:\n", " # -\r1\n"]));
    }
    text.into_bytes()
}

/// One damage to a file.
fn damage(rng: &mut Rng, case: &mut Case) {
    let file = rng.pick(&BOTH);
    let bytes = case.file(file);
    let spans = spans(bytes);
    if spans.is_empty() {
        bytes.extend_from_slice(rng.pick(WORDS).as_bytes());
        return;
    }
    let at = rng.index(spans.len());
    let (from, to) = spans[at];
    match rng.below(8) {
        0..=2 => *bytes = replaced(bytes, (from, to), rng.pick(WORDS).as_bytes()),
        3 => *bytes = replaced(bytes, (from, to), b""),
        4 => *bytes = replaced(bytes, (from, from), format!("{} ", rng.pick(WORDS)).as_bytes()),
        5 => {
            let length = rng.index(bytes.len() + 1);
            bytes.truncate(length);
        }
        6 => {
            let place = rng.index(bytes.len());
            bytes[place] = rng.pick(&[0, b' ', b'-', b'.', b'#', b':', b'0', b'9', b'\n', 255]);
        }
        // Few are as long as this, for the time's sake.
        _ if rng.once_in(30) => bytes.resize(SOLVER_BYTES + 1, b' '),
        _ => bytes.resize(rng.pick(&[FILE_BYTES, FILE_BYTES + 1]), b' '),
    }
}
