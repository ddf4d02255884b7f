//! Models, levels and files that leave a call as much work as there can be: no probability and no weight is 0, every level
//! is accepted, and every point takes something off the corners.

use crate::limits::{covers, full_mask, BUILT_POINTS, REWARD, TOTAL};
use crate::tuned::TUNED;
use biidhaqun::slices::{Certifier, Graph, Level, Refusal, Tables};
use compare::lent::Library;
use compare::rng::Rng;

/// The counts of a model.
#[derive(Clone, Copy, Debug)]
pub struct Counts {
    pub states: usize,
    pub actions: usize,
    pub observations: usize,
}

/// Weights with this total, none of them 0.
pub fn shares<Weight: Copy + From<u8> + std::ops::AddAssign>(rng: &mut Rng, cells: usize, total: usize) -> Vec<Weight> {
    let one = Weight::from(1);
    let mut row = vec![one; cells];
    for _ in cells..total {
        row[rng.index(cells)] += one;
    }
    row
}

/// Tables with these counts.
pub fn tables(rng: &mut Rng, counts: Counts) -> Tables {
    let Counts { states, actions, observations } = counts;
    let rows = states * actions;
    Tables {
        states,
        actions,
        observations,
        discount: 950,
        transition: (0..rows).flat_map(|_| shares(rng, states, 1_000)).collect(),
        observation: (0..rows).flat_map(|_| shares(rng, observations, 1_000)).collect(),
        reward: (0..rows).map(|_| rng.within(-REWARD, REWARD)).collect(),
    }
}

/// Tables whose actions lead from no state of one half to one of the other.
fn parted_tables(rng: &mut Rng, counts: Counts) -> Tables {
    let mut tables = tables(rng, counts);
    let (n, half) = (counts.states, counts.states / 2);
    for (row, cells) in tables.transition.chunks_exact_mut(n).enumerate() {
        cells.fill(0);
        let first = if row % n < half { 0 } else { half };
        cells[first..first + half].copy_from_slice(&shares(rng, half, 1_000));
    }
    tables
}

/// Tables whose actions lead from each state to 2 or 3 others.
pub fn sparse_tables(rng: &mut Rng, counts: Counts) -> Tables {
    let mut tables = tables(rng, counts);
    let n = counts.states;
    for cells in tables.transition.chunks_exact_mut(n) {
        cells.fill(0);
        let (first, reached) = (rng.index(n), 2 + rng.index(2));
        let chances: Vec<u16> = shares(rng, reached, 1_000);
        for (at, chance) in chances.into_iter().enumerate() {
            cells[(first + 5 * at) % n] = chance;
        }
    }
    tables
}

/// A plan graph with so many nodes.
pub fn graph(rng: &mut Rng, counts: Counts, nodes: usize) -> Graph {
    Graph {
        nodes,
        actions: (0..nodes).map(|_| rng.index(counts.actions) as u8).collect(),
        next: (0..nodes * counts.observations).map(|_| rng.index(nodes) as u16).collect(),
    }
}

/// The weights of so many points.
pub fn points(rng: &mut Rng, states: usize, count: usize) -> Vec<u32> {
    (0..count).flat_map(|_| shares::<u32>(rng, states, TOTAL as usize)).collect()
}

/// A model and a certifier.
#[derive(Clone)]
pub struct Standing {
    pub tables: Tables,
    pub certifier: Certifier,
}

impl Standing {
    /// A certifier that opens on tables.
    pub fn fresh(tables: Tables) -> Standing {
        let mut certifier = Certifier::roomy(tables.states, tables.actions, tables.observations);
        assert_eq!(TUNED.open(&tables, &mut certifier), Refusal::default(), "tables within the limits");
        Standing { tables, certifier }
    }

    /// The level that is built at some points.
    pub fn built(&self, points: &[u32]) -> Level {
        let (n, k) = (self.tables.states, self.tables.observations);
        let count = points.len() / n;
        let mut level = Level::zeros(n, k, n + count, count);
        let ended = TUNED.build(&self.tables, &[], &self.certifier, (count, points), &mut level);
        assert_eq!(ended, Refusal::default(), "points within the limits");
        Level { vectors: n + count, points: count, weights: points.to_vec(), ..level }
    }

    /// A level that is accepted, with so many vectors and these points: built, in parts where there are more points than the
    /// builder takes.
    fn level(&self, points: &[u32], vectors: usize) -> Level {
        let (n, k) = (self.tables.states, self.tables.observations);
        let mut parts = points.chunks(BUILT_POINTS * n);
        let mut level = self.built(parts.next().unwrap_or(&[]));
        for part in parts {
            let more = self.built(part);
            // The first vectors are those of the corners, once more.
            level.actions.extend_from_slice(&more.actions[n..]);
            level.choices.extend_from_slice(&more.choices[n * k..]);
            level.entries.extend_from_slice(&more.entries[n * n..]);
            level.weights.extend_from_slice(&more.weights);
            level.values.extend_from_slice(&more.values);
        }
        // The vectors again and again; of those that stand, which lie so too, all copies are chosen in turn.
        let (made, stand) = (level.actions.len(), self.certifier.state[1]);
        let chosen = |v: usize, cell: usize| {
            let first = usize::from(level.choices[v % made * k + cell]);
            let copies = (stand - 1 - first) / made + 1;
            (first + made * (v % copies)) as u16
        };
        Level {
            vectors,
            points: level.values.len(),
            actions: (0..vectors).map(|v| level.actions[v % made]).collect(),
            choices: (0..vectors * k).map(|cell| chosen(cell / k, cell % k)).collect(),
            masks: vec![full_mask(n); vectors],
            entries: (0..vectors * n).map(|cell| level.entries[cell / n % made * n + cell % n]).collect(),
            ..level
        }
    }
}

/// The same level, with as many copies of its first point, each of a lower value than the one before: every point then
/// beats all before it, and none can be left early.
fn stairs(level: Level) -> Level {
    let count = level.values.len();
    let n = level.corners.len();
    if count == 0 {
        return level;
    }
    Level {
        weights: level.weights[..n].repeat(count),
        values: (0..count as i64).rev().map(|above| level.values[0] + above).collect(),
        ..level
    }
}

/// A certifier after three levels with so many vectors and points, and a level to offer it that is accepted.
pub fn offer(rng: &mut Rng, counts: Counts, vectors: usize, count: usize, steep: bool) -> (Standing, Level) {
    let tables = tables(rng, counts);
    offer_upon(rng, tables, vectors, count, steep)
}

/// The same upon a model whose transitions are mostly 0.
pub fn sparse_offer(rng: &mut Rng, counts: Counts, vectors: usize, count: usize) -> (Standing, Level) {
    let tables = sparse_tables(rng, counts);
    offer_upon(rng, tables, vectors, count, false)
}

/// Tables of which every reward is changed by up to 30 ticks.
pub fn repriced(rng: &mut Rng, tables: &Tables) -> Tables {
    let mut new = tables.clone();
    for reward in &mut new.reward {
        *reward = (*reward + rng.within(-30, 30)).clamp(-REWARD, REWARD);
    }
    new
}

fn offer_upon(rng: &mut Rng, tables: Tables, vectors: usize, count: usize, steep: bool) -> (Standing, Level) {
    let states = tables.states;
    let mut standing = Standing::fresh(tables);
    for step in 1..=3 {
        let mut next = standing.level(&points(rng, states, count), vectors);
        if steep && step == 3 {
            next = stairs(next);
        }
        let ended = TUNED.offer(&standing.tables, &[], &mut standing.certifier, &next);
        assert_eq!(ended, Refusal::default(), "a built level is accepted");
    }
    let offered = standing.level(&points(rng, states, count), vectors);
    (standing, offered)
}

/// The same without points, upon a model of two halves: each vector covers one of them, and goes on with those that do.
pub fn halved(rng: &mut Rng, counts: Counts, vectors: usize) -> (Standing, Level) {
    let (n, half) = (counts.states, counts.states / 2);
    let tables = parted_tables(rng, counts);
    let (mut standing, mut level) = offer_upon(rng, tables, vectors, 0, false);
    // A vector was made at each corner, and they are repeated: every other time round they cover the other half.
    let side = |v: usize| v / n % 2;
    let mask = |v: usize| if side(v) == 0 { full_mask(half) } else { full_mask(n) & !full_mask(half) };
    level.masks = (0..vectors).map(mask).collect();
    for (cell, choice) in level.choices.iter_mut().enumerate() {
        let (v, first) = (cell / counts.observations, usize::from(*choice) % n);
        let rounds = vectors / (2 * n);
        *choice = (first + n * (2 * (v % rounds) + side(v))) as u16;
    }
    let Certifier { masks, entries, .. } = &mut standing.certifier;
    for (v, (cell, row)) in masks.iter_mut().zip(entries.chunks_exact_mut(n)).take(vectors).enumerate() {
        *cell = mask(v);
        row.iter_mut().enumerate().filter(|(s, _)| !covers(*cell, *s)).for_each(|(_, entry)| *entry = 0);
    }
    (standing, level)
}

/// A model file for tables and a start point, filled up with statements to nearly the longest there may be.
pub fn file(tables: &Tables, start: &[u16], longest: usize) -> String {
    let share = |cell: u64| format!("{}.{:03}", cell / 1_000, cell % 1_000);
    let row = |cells: &[u16]| cells.iter().map(|&cell| share(cell.into())).collect::<Vec<String>>().join(" ");
    let n = tables.states;
    let mut text = format!(
        "discount: {}\nvalues: reward\nstates: {}\nactions: {}\nobservations: {}\nstart:",
        share(tables.discount),
        n,
        tables.actions,
        tables.observations
    );
    for number in start {
        text.push_str(&format!(" {}.{:02}", number / 100, number % 100));
    }
    text.push('\n');
    let entry = |at: usize| {
        let cell = share(tables.transition[at].into());
        format!("T: {} : {} : {} {}\n", at / n / n, at / n % n, at % n, cell)
    };
    for (at, cells) in tables.transition.chunks(n).enumerate() {
        // A row of many zeros goes by its other entries.
        if 4 * cells.iter().filter(|&&cell| cell > 0).count() < n {
            let above = (0..n).filter(|&s| cells[s] > 0);
            above.for_each(|s| text.push_str(&entry(at * n + s)));
        } else {
            text.push_str(&format!("T: {} : {} {}\n", at / n, at % n, row(cells)));
        }
    }
    for (at, cells) in tables.observation.chunks(tables.observations).enumerate() {
        text.push_str(&format!("O: {} : {} {}\n", at / n, at % n, row(cells)));
    }
    for (at, reward) in tables.reward.iter().enumerate() {
        let sign = if *reward < 0 { "-" } else { "" };
        let (units, hundredths) = (reward.abs() / 100, reward.abs() % 100);
        text.push_str(&format!("R: {} : {} : * : * {}{}.{:02}\n", at / n, at % n, sign, units, hundredths));
    }
    for line in (0..tables.transition.len()).map(entry) {
        if text.len() + line.len() > longest {
            break;
        }
        text.push_str(&line);
    }
    text
}

/// A file whose rewards are stated by outcome, as many as there is room for: they are whole tens, and rows of T are in hundredths and
/// those of O in tenths, so that all expected rewards are whole.
pub fn outcome_file(rng: &mut Rng, counts: Counts, longest: usize) -> String {
    let Counts { states: n, actions: m, observations: k } = counts;
    let coarse = |cells: usize, total: usize, rng: &mut Rng| -> Vec<u16> {
        let parts: Vec<u16> = shares(rng, cells, total);
        parts.iter().map(|part| part * (1_000 / total) as u16).collect()
    };
    let mut tables = Tables { reward: vec![0; m * n], ..tables(rng, counts) };
    tables.transition = (0..m * n).flat_map(|_| coarse(n, 100, rng)).collect();
    tables.observation = (0..m * n).flat_map(|_| coarse(k, 10, rng)).collect();
    let start: Vec<u16> = shares(rng, n, TOTAL as usize);
    // All that is stated of T, O and R before the outcomes.
    let mut text = file(&tables, &start, 0);
    for at in 0..m * n {
        let line = format!("R: {} : {} : * : {} {}\n", at / n, at % n, k - 1, rng.within(-99, 99) * 10);
        text.push_str(&line);
    }
    for at in 0..m * n * n {
        let line = format!("R: {} : {} : {} : 0 -10\n", at / n / n, at / n % n, at % n);
        if text.len() + line.len() > longest {
            break;
        }
        text.push_str(&line);
    }
    text
}

/// A level as a solver saves it: the alpha file and the policy graph.
pub fn solver_files(level: &Level, n: usize, k: usize) -> (String, String) {
    let decimal = |&ticks: &i64| {
        let (minus, size) = (if ticks < 0 { "-" } else { "" }, ticks.unsigned_abs());
        format!("{}{}.{:02}0000000000 ", minus, size / 100, size % 100)
    };
    let vectors = level.actions.iter().zip(level.entries.chunks(n)).take(level.vectors);
    let alpha = vectors.map(|(action, row)| format!("{}\n{}\n\n", action, row.iter().map(decimal).collect::<String>()));
    let nodes = level.actions.iter().zip(level.choices.chunks(k)).take(level.vectors).enumerate();
    let next = |choices: &[u16]| choices.iter().map(|choice| format!("{} ", choice)).collect::<String>();
    let graph = nodes.map(|(node, (action, choices))| format!("{} {}  {}\n", node, action, next(choices)));
    (alpha.collect(), graph.collect())
}

#[cfg(test)]
mod tests {
    use super::*;
    use crate::limits::{FILE_BYTES, POINTS, VECTORS};
    use crate::plain::PLAIN;

    #[test]
    fn the_largest_level_is_accepted_and_all_its_points_matter() {
        let counts = Counts { states: 16, actions: 8, observations: 8 };
        for (vectors, steep) in [(32, false), (32, true), (VECTORS, false)] {
            let (mut standing, offered) = offer(&mut Rng::for_case(1, "bench", 0), counts, vectors, POINTS, steep);
            assert_eq!((offered.actions.len(), offered.values.len()), (vectors, POINTS));
            assert_eq!(offered.choices.iter().any(|&choice| choice > 950), vectors == VECTORS);
            let Certifier { weights, values, corners, .. } = &standing.certifier;
            for (weights, value) in weights.chunks(16).zip(values) {
                let corners: i64 = weights.iter().zip(corners).map(|(&p, c)| i64::from(p) * c).sum();
                assert!(corners > *value);
            }
            let ended = TUNED.offer(&standing.tables, &[], &mut standing.certifier, &offered);
            assert_eq!(ended, Refusal::default());
        }
    }

    #[test]
    fn vectors_of_one_half_are_accepted() {
        let counts = Counts { states: 16, actions: 8, observations: 8 };
        let (mut standing, offered) = halved(&mut Rng::for_case(1, "bench", 0), counts, VECTORS);
        assert!(offered.masks.iter().all(|mask| mask.count_ones() == 8));
        let ended = TUNED.offer(&standing.tables, &[], &mut standing.certifier, &offered);
        assert_eq!(ended, Refusal::default());
        let at = |first: u32, last: u32| {
            let mixture = [[first; 8], [last; 8]].concat();
            TUNED.totals(&standing.tables, &standing.certifier, &mixture).number
        };
        assert_eq!((at(1, 0), at(0, 1), at(1, 1)), (0, 0, 22));
    }

    #[test]
    fn a_large_file_reads_back() {
        let mut rng = Rng::for_case(1, "bench", 1);
        let tables = tables(&mut rng, Counts { states: 16, actions: 8, observations: 8 });
        let start: Vec<u16> = shares(&mut rng, 16, 100);
        let text = file(&tables, &start, FILE_BYTES);
        assert!(text.len() > FILE_BYTES - 100 && text.len() <= FILE_BYTES);
        let room = Tables::roomy();
        for read in [PLAIN.read_into(text.as_bytes(), &room), TUNED.read_into(text.as_bytes(), &room)] {
            let read = read.unwrap();
            assert_eq!((&read.tables, &read.start), (&tables, &start));
        }
        let tables = sparse_tables(&mut rng, Counts { states: 64, actions: 2, observations: 2 });
        let start: Vec<u16> = shares(&mut rng, 64, 100);
        let text = file(&tables, &start, FILE_BYTES);
        let read = TUNED.read_into(text.as_bytes(), &room).unwrap();
        assert_eq!((&read.tables, &read.start), (&tables, &start));
    }
}
