//! The same algorithm written as well as we can, in i64, without allocation.
//!
//! Sums are regrouped so that each partial sum is worked out once, a drop is found by cross-multiplication with one
//! division, and a point is left at the first state that shows that it cannot beat the largest drop so far. Whether a vector
//! counts is one `&` of its mask with the mask of the weights.

use crate::limits::*;
use crate::solver_file::{self, Files};
use crate::tuned_file;
use crate::whole::Whole;
use biidhaqun::slices::{Answers, Certifier, Graph, Level, Tables, Totals, TotalsWithin};
use compare::gen::Question;

pub const TUNED: Whole = Whole {
    read: tuned_file::read,
    write: tuned_file::write,
    judge,
    examine,
    offer,
    totals,
    within,
    each,
    build,
    adopt,
    worth,
};

/// Room for a number for each state.
type States = [i64; STATES];
const QUARTER: usize = STATES / 4;
/// Room for each point's gain.
type Gains = [i64; POINTS];
/// Room for the weights of all points.
type Weights = [i64; POINTS * STATES];

/// The product of thousandths with numbers, of which those that count are within their range.
fn mean(row: &[u16], numbers: &[i64]) -> i64 {
    let product = |(&cell, number): (&u16, &i64)| i64::from(cell).wrapping_mul(*number);
    row.iter().zip(numbers).map(product).fold(0, i64::wrapping_add)
}

/// Weights as i64, in room for them.
fn whole<'a>(weights: &[u32], room: &'a mut [i64]) -> &'a [i64] {
    let room = &mut room[..weights.len()];
    for (cell, &weight) in room.iter_mut().zip(weights) {
        *cell = i64::from(weight);
    }
    room
}

/// The rows of an action, each of `width` cells.
fn of_action<Cell>(cells: &[Cell], n: usize, width: usize, a: usize) -> &[Cell] {
    &cells[a * n * width..(a + 1) * n * width]
}

/// The first row whose cells do not total 1,000.
fn first_row(cells: &[u16], width: usize) -> Option<usize> {
    let total = |row: &[u16]| row.iter().map(|&cell| u32::from(cell)).sum::<u32>();
    cells.chunks_exact(width).position(|row| total(row) != THOUSAND as u32)
}

/// 3, 5, 6.
fn judge(tables: &Tables) -> Answer<Model<'_>> {
    let thousandths = |cells: &[u16]| cells.iter().all(|&cell| i64::from(cell) <= THOUSAND);
    let rewards = |cells: &[i64]| cells.iter().all(|cell| (-REWARD..=REWARD).contains(cell));
    let model = match Model::of(tables) {
        Some(model) if thousandths(model.t) && thousandths(model.o) && rewards(model.r) => model,
        _ => return refused(3, 0),
    };
    refuse(5, first_row(model.t, model.n))?;
    refuse(6, first_row(model.o, model.k))?;
    Ok(model)
}

/// What the weights of a point total, if that is 1 to 100.
fn total(row: &[u32]) -> Option<i64> {
    let total = row.iter().map(|&weight| i64::from(weight)).sum();
    (1..=TOTAL).contains(&total).then_some(total)
}

/// 12: the first point whose weights total less than 1 or more than 100.
fn first_untotalled(weights: &[u32], n: usize) -> Option<usize> {
    weights.chunks_exact(n).position(|row| total(row).is_none())
}

/// 11.
fn first_outside(level: &Cut, n: usize, t: usize) -> Option<usize> {
    let end = REWARD * t as i64;
    let outside = |value: &i64, end: i64| !(-end..=end).contains(value);
    let full = full_mask(n);
    let beyond = |(row, &mask): (&[i64], &u64)| {
        row.iter().any(|entry| outside(entry, end))
            && (mask & full == full || row.iter().enumerate().any(|(s, entry)| covers(mask, s) && outside(entry, end)))
    };
    let vector = level.entries.chunks_exact(n).zip(level.masks).position(beyond);
    vector.or_else(|| level.corners.iter().position(|corner| outside(corner, end))).or_else(|| {
        let mut points = level.values.iter().zip(level.weights.chunks_exact(n));
        points.position(|(value, p)| total(p).map_or(false, |total| outside(value, total * end)))
    })
}

/// The sawtooth of a level: its corners, its points' weights, and what each point takes off the corners.
struct Sawtooth<'a> {
    corners: &'a [i64],
    weights: &'a [i64],
    gains: Gains,
}

impl<'a> Sawtooth<'a> {
    fn of(level: &Cut<'a>, room: &'a mut Weights) -> Sawtooth<'a> {
        let weights = whole(level.weights, room);
        let mut gains = [0; POINTS];
        let points = weights.chunks_exact(level.corners.len()).zip(level.values);
        for (gain, (p, value)) in gains.iter_mut().zip(points) {
            *gain = dot(level.corners, p) - value;
        }
        Sawtooth { corners: level.corners, weights, gains }
    }

    /// The ceiling at q.
    fn ceiling(&self, q: &[i64]) -> i64 {
        // With the largest number of states, or a quarter of it, the loops over them have a length that the compiler knows.
        let drop = match q.len() {
            STATES => largest_drop(self.weights, &self.gains, q, STATES),
            QUARTER => largest_drop(self.weights, &self.gains, q, QUARTER),
            n => largest_drop(self.weights, &self.gains, q, n),
        };
        dot(self.corners, q) - drop
    }
}

/// The first of the vectors that cover the needed states with the largest product with q, and that product.
fn best_vector(level: &Cut, needed: u64, q: &[i64]) -> Option<(usize, i64)> {
    let mut best = None;
    let mut most = i64::MIN;
    for (v, (entries, mask)) in level.entries.chunks_exact(q.len()).zip(level.masks).enumerate() {
        if needed & !mask == 0 {
            let product = dot(entries, q);
            if product > most {
                most = product;
                best = Some((v, product));
            }
        }
    }
    best
}

/// The mask of the states with weight.
fn weighty(weights: &[i64]) -> u64 {
    bits(weights.iter().map(|&weight| weight > 0))
}

/// The mask of what holds.
fn bits(holds: impl Iterator<Item = bool>) -> u64 {
    holds.enumerate().fold(0, |mask, (s, holds)| mask | u64::from(holds) << s)
}

/// What each action reaches, in masks: from each state, and with each observation.
struct Reach {
    from: [u64; ACTIONS * STATES],
    with: [u64; ACTIONS * OBSERVATIONS],
}

impl Reach {
    fn of(model: &Model) -> Reach {
        let (n, k) = (model.n, model.k);
        let mut reach = Reach { from: [0; ACTIONS * STATES], with: [0; ACTIONS * OBSERVATIONS] };
        for (mask, row) in reach.from.iter_mut().zip(model.t.chunks_exact(n)) {
            *mask = bits(row.iter().map(|&t| t > 0));
        }
        for a in 0..model.m {
            for o in 0..k {
                let rows = of_action(model.o, n, k, a).chunks_exact(k);
                reach.with[a * k + o] = bits(rows.map(|row| row[o] > 0));
            }
        }
        reach
    }

    /// Whether a covered state reaches one that the vector chosen does not cover.
    fn loses(&self, model: &Model, masks: &[u64], a: usize, mask: u64, choices: &[u16]) -> bool {
        let (n, k) = (model.n, model.k);
        let from = self.from[a * n..(a + 1) * n].iter().enumerate().filter(|(s, _)| covers(mask, *s));
        let reached = from.fold(0, |all, (_, reached)| all | reached);
        let lost = |(&choice, with): (&u16, &u64)| reached & with & !masks[usize::from(choice)] != 0;
        choices.iter().zip(&self.with[a * k..]).any(lost)
    }
}

/// What is reached, unless all that stands covers all states.
fn reach(model: &Model, masks: &[u64]) -> Option<Reach> {
    let full = full_mask(model.n);
    masks.iter().any(|mask| full & !mask != 0).then(|| Reach::of(model))
}

/// The largest drop of a point at q, or 0.
#[inline(always)]
fn largest_drop(weights: &[i64], gains: &Gains, q: &[i64], n: usize) -> i64 {
    let mut best = 0;
    for (p, &gain) in weights.chunks_exact(n).zip(gains) {
        if gain <= 0 {
            continue;
        }
        let least = best + 1;
        if q.iter().zip(p).any(|(q, p)| q * gain < least * p) {
            continue;
        }
        best = drop_of(q, p, gain);
    }
    best
}

/// The drop of a point: the smallest ratio by cross-multiplication, and one division.
#[inline(never)]
fn drop_of(q: &[i64], p: &[i64], gain: i64) -> i64 {
    // Any state with weight takes the place of the first ratio, which is over nothing.
    let (mut top, mut under) = (1, 0);
    for (&q, &p) in q.iter().zip(p) {
        if q * under < top * p {
            top = q;
            under = p;
        }
    }
    top * gain / under
}

/// 7.
fn examine<'a>(tables: &'a Tables, certifier: &'a Certifier) -> Answer<Examined<'a>> {
    examined(judge(tables), certifier, |level, n, number| {
        first_outside(level, n, number).is_none() && first_untotalled(level.weights, n).is_none()
    })
}

/// What moves to each state by an action: the sum over s of p(s) × T.
fn moved<'a>(model: &Model, p: &[i64], a: usize, room: &'a mut States) -> &'a [i64] {
    let n = model.n;
    let u = &mut room[..n];
    u.fill(0);
    for (&p, row) in p.iter().zip(of_action(model.t, n, n, a).chunks_exact(n)) {
        if p != 0 {
            for (u, &t) in u.iter_mut().zip(row) {
                *u += p * i64::from(t);
            }
        }
    }
    u
}

/// The successor weights for an observation, from what moved.
fn successor<'a>(model: &Model, u: &[i64], a: usize, o: usize, room: &'a mut States) -> &'a [i64] {
    let (n, k) = (model.n, model.k);
    let q = &mut room[..n];
    for ((q, u), row) in q.iter_mut().zip(u).zip(of_action(model.o, n, k, a).chunks_exact(k)) {
        *q = u * i64::from(row[o]);
    }
    q
}

/// The sum over o of O × (the entry of the vector chosen for o), at each state reached. Entries that are not covered may be
/// anything, and what is foreseen there is not read.
fn foreseen<'a>(model: &Model, entries: &[i64], a: usize, choices: &[u16], room: &'a mut States) -> &'a [i64] {
    let (n, k) = (model.n, model.k);
    let f = &mut room[..n];
    f.fill(0);
    let rows = of_action(model.o, n, k, a);
    for (o, &choice) in choices.iter().enumerate() {
        let entries = of_action(entries, n, 1, usize::from(choice));
        for ((f, entry), row) in f.iter_mut().zip(entries).zip(rows.chunks_exact(k)) {
            *f = f.wrapping_add(i64::from(row[o]).wrapping_mul(*entry));
        }
    }
    f
}

/// Each state's backup by an action, from what is foreseen.
fn backups<'a>(model: &Model<'a>, a: usize, f: &'a [i64]) -> impl Iterator<Item = i64> + 'a {
    let (n, g) = (model.n, model.g);
    let rows = of_action(model.t, n, n, a).chunks_exact(n);
    rows.zip(of_action(model.r, n, 1, a))
        .map(move |(row, reward)| (K * reward).wrapping_add(g.wrapping_mul(mean(row, f))))
}

/// K × p·R(·, a).
fn earned(model: &Model, p: &[i64], a: usize) -> i64 {
    K * dot(p, of_action(model.r, model.n, 1, a))
}

/// K times the least value at p that an action allows.
fn ceiling_backup(model: &Model, sawtooth: &Sawtooth, p: &[i64], a: usize) -> i64 {
    let (mut room, mut next) = ([0; STATES], [0; STATES]);
    let u = moved(model, p, a, &mut room);
    let mut ceilings = 0;
    for o in 0..model.k {
        ceilings += sawtooth.ceiling(successor(model, u, a, o, &mut next));
    }
    earned(model, p, a) + model.g * ceilings
}

/// Room for the rows.
type Rows = [i64; ACTIONS * STATES];

/// The quotient by K rounded up.
fn up(backup: i64) -> i64 {
    -(-backup).div_euclid(K)
}

/// The informed rows of the next level. What an action's observation makes of each row is worked out once for all states.
fn informed<'a>(model: &Model, rows: &[i64], room: &'a mut Rows) -> &'a [i64] {
    let (n, k) = (model.n, model.k);
    let mut seen: Rows = [0; ACTIONS * STATES];
    for a in 0..model.m {
        let mut follows = [0; STATES];
        let sights = of_action(model.o, n, k, a);
        for o in 0..k {
            for (seen, row) in seen.chunks_exact_mut(n).zip(rows.chunks_exact(n)) {
                for ((seen, sight), entry) in seen.iter_mut().zip(sights.chunks_exact(k)).zip(row) {
                    *seen = i64::from(sight[o]) * entry;
                }
            }
            for (follows, chances) in follows.iter_mut().zip(of_action(model.t, n, n, a).chunks_exact(n)) {
                let best = seen[..rows.len()].chunks_exact(n).map(|seen| mean(chances, seen)).max();
                *follows += best.unwrap_or(0);
            }
        }
        let entries = room[a * n..(a + 1) * n].iter_mut().zip(&follows);
        for ((entry, follows), reward) in entries.zip(of_action(model.r, n, 1, a)) {
            *entry = up(K * reward + model.g * follows);
        }
    }
    &room[..rows.len()]
}

/// The QMDP rows of the next level.
fn qmdp<'a>(model: &Model, rows: &[i64], room: &'a mut Rows) -> &'a [i64] {
    let n = model.n;
    let mut best = [i64::MIN; STATES];
    for row in rows.chunks_exact(n) {
        for (best, &entry) in best.iter_mut().zip(row) {
            *best = (*best).max(entry);
        }
    }
    let chances = model.t.chunks_exact(n).zip(model.r);
    for (entry, (chances, reward)) in room.iter_mut().zip(chances) {
        *entry = up(K * reward + model.g * THOUSAND * mean(chances, &best[..n]));
    }
    &room[..rows.len()]
}

/// Weight 1 on one state.
fn corner(state: usize) -> States {
    let mut p = [0; STATES];
    p[state] = 1;
    p
}

fn offer(tables: &Tables, certifier: &mut Certifier, level: &Level) -> Answer<()> {
    let (model, number, standing) = examine(tables, certifier)?;
    if number == LEVELS {
        return refused(8, 0);
    }
    let (n, k) = (model.n, model.k);
    let offered = match Cut::offered(level, n, k) {
        Some(offered) if offered.has_room_in(certifier) => offered,
        _ => return refused(9, 0),
    };
    let exists = |(&action, choices): (&u8, &[u16])| {
        usize::from(action) < model.m && choices.iter().all(|&v| usize::from(v) < standing.actions.len())
    };
    refuse(10, offered.actions.iter().zip(offered.choices.chunks_exact(k)).position(|vector| !exists(vector)))?;
    refuse(11, first_outside(&offered, n, number + 1))?;
    refuse(12, first_untotalled(offered.weights, n))?;
    let vectors = || offered.actions.iter().zip(offered.choices.chunks_exact(k)).zip(offered.masks);
    if let Some(reach) = reach(&model, standing.masks) {
        let loses = |((&a, choices), &mask): ((&u8, &[u16]), &u64)| {
            reach.loses(&model, standing.masks, a.into(), mask, choices)
        };
        refuse(21, vectors().position(loses))?;
    }

    let mut room = [0; STATES];
    let full = full_mask(n);
    for (v, (((&a, choices), &mask), entries)) in vectors().zip(offered.entries.chunks_exact(n)).enumerate() {
        let f = foreseen(&model, standing.entries, a.into(), choices, &mut room);
        let mut pairs = entries.iter().zip(backups(&model, a.into(), f)).enumerate();
        let above = if mask & full == full {
            pairs.any(|(_, (entry, backup))| K * entry > backup)
        } else {
            pairs.any(|(s, (entry, backup))| covers(mask, s) && K * entry > backup)
        };
        if above {
            return refused(13, v);
        }
    }
    let mut weights = [0; POINTS * STATES];
    let sawtooth = Sawtooth::of(&standing, &mut weights);
    let suffices = |value: i64, p: &[i64]| (0..model.m).all(|a| K * value >= ceiling_backup(&model, &sawtooth, p, a));
    for (s, &value) in offered.corners.iter().enumerate() {
        if !suffices(value, &corner(s)[..n]) {
            return refused(14, s);
        }
    }
    for (j, (&value, p)) in offered.values.iter().zip(offered.weights.chunks_exact(n)).enumerate() {
        if !suffices(value, whole(p, &mut room)) {
            return refused(15, j);
        }
    }
    let (mut low, mut high) = ([0; ACTIONS * STATES], [0; ACTIONS * STATES]);
    let informed = informed(&model, standing.informed, &mut low);
    let qmdp = qmdp(&model, standing.qmdp, &mut high);
    Cut { informed, qmdp, ..offered }.stand(number + 1, certifier);
    Ok(())
}

/// 7, 16.
fn standing<'a>(tables: &'a Tables, certifier: &'a Certifier) -> Answer<(Model<'a>, Cut<'a>)> {
    risen(examine(tables, certifier)?)
}

fn totals_at(level: &Cut, sawtooth: &Sawtooth, weights: &[u32]) -> Answer<Totals> {
    let mut room = [0; STATES];
    let b = whole(mixture(weights, level.corners.len())?, &mut room);
    let (first, lower) = match best_vector(level, weighty(b), b) {
        Some(best) => best,
        None => return refused(22, 0),
    };
    let informed = level.informed.chunks_exact(b.len()).map(|row| dot(row, b)).max().unwrap_or(0);
    Ok(totals_of(lower, level.actions[first], sawtooth.ceiling(b), informed))
}

fn totals(tables: &Tables, certifier: &Certifier, mixture: &[u32]) -> Answer<Totals> {
    let (_, level) = standing(tables, certifier)?;
    totals_at(&level, &Sawtooth::of(&level, &mut [0; POINTS * STATES]), mixture)
}

/// The sum of weight × entry, with one weight for entries of 0 or more and another for the others.
fn sure(over: &[i64], under: &[i64], entries: &[i64]) -> i64 {
    let weights = over.iter().zip(under);
    entries.iter().zip(weights).map(|(&entry, (over, under))| over * entry.max(0) + under * entry.min(0)).sum()
}

fn within(tables: &Tables, certifier: &Certifier, lows: &[u32], highs: &[u32]) -> Answer<TotalsWithin> {
    let (model, level) = standing(tables, certifier)?;
    let (lows, highs) = ranges(lows, highs, model.n)?;
    let (mut room, mut more) = ([0; STATES], [0; STATES]);
    let (low, high) = (whole(lows, &mut room), whole(highs, &mut more));
    let needed = weighty(high);
    let vectors = level.entries.chunks_exact(model.n).zip(level.masks);
    let counting = vectors.filter(|(_, mask)| needed & !*mask == 0);
    match counting.map(|(entries, _)| sure(low, high, entries)).max() {
        Some(lower) => Ok(TotalsWithin { lower, upper: sure(high, low, level.corners), ..TotalsWithin::default() }),
        None => refused(22, 0),
    }
}

fn each(tables: &Tables, certifier: &Certifier, mixtures: Weighed, answers: &mut Answers) -> Answer<()> {
    let (model, level) = standing(tables, certifier)?;
    let mut weights = [0; POINTS * STATES];
    let sawtooth = Sawtooth::of(&level, &mut weights);
    answer(model.n, mixtures, answers, |mixture| totals_at(&level, &sawtooth, mixture))
}

fn build(tables: &Tables, certifier: &Certifier, (count, points): Weighed, level: &mut Level) -> Answer<()> {
    let (model, number, standing) = examine(tables, certifier)?;
    if number == LEVELS {
        return refused(8, 0);
    }
    let n = model.n;
    if count > BUILT_POINTS || points.len() < count * n || !has_room(level, n, model.k, n + count, count) {
        return refused(9, 0);
    }
    let points = &points[..count * n];
    refuse(12, first_untotalled(points, n))?;
    let full = full_mask(n);
    if standing.masks.iter().all(|mask| full & !mask != 0) {
        return refused(22, 0);
    }
    let mut weights = [0; POINTS * STATES];
    let sawtooth = Sawtooth::of(&standing, &mut weights);
    level.masks[..n + count].fill(full);
    for s in 0..n {
        level.corners[s] = put_vector(&model, &standing, &sawtooth, &corner(s)[..n], s, level);
    }
    for (j, p) in points.chunks_exact(n).enumerate() {
        let mut room = [0; STATES];
        level.values[j] = put_vector(&model, &standing, &sawtooth, whole(p, &mut room), n + j, level);
    }
    Ok(())
}

/// Writes the vector at p; the least value there. An action's successor weights serve both.
fn put_vector(model: &Model, standing: &Cut, sawtooth: &Sawtooth, p: &[i64], v: usize, level: &mut Level) -> i64 {
    let (n, k) = (model.n, model.k);
    let (mut room, mut next, mut ahead) = ([0; STATES], [0; STATES], [0; STATES]);
    let mut choices = [0; OBSERVATIONS];
    let mut entries = [0; STATES];
    let (mut most, mut value) = (i64::MIN, i64::MIN);
    for a in 0..model.m {
        let u = moved(model, p, a, &mut room);
        let mut ceilings = 0;
        for (o, choice) in choices[..k].iter_mut().enumerate() {
            let q = successor(model, u, a, o, &mut next);
            *choice = best_vector(standing, full_mask(n), q).map_or(0, |(first, _)| first as u16);
            ceilings += sawtooth.ceiling(q);
        }
        let backup = earned(model, p, a) + model.g * ceilings;
        value = value.max(-(-backup).div_euclid(K));
        let f = foreseen(model, standing.entries, a, &choices[..k], &mut ahead);
        for (entry, backup) in entries.iter_mut().zip(backups(model, a, f)) {
            *entry = backup.div_euclid(K);
        }
        let product = dot(&entries[..n], p);
        if product > most {
            most = product;
            level.actions[v] = a as u8;
            level.choices[v * k..(v + 1) * k].copy_from_slice(&choices[..k]);
            level.entries[v * n..(v + 1) * n].copy_from_slice(&entries[..n]);
        }
    }
    value
}

fn adopt(upon: &Examined, files: &Files, points: Weighed, level: &mut Level) -> Answer<usize> {
    let (model, number, standing) = upon;
    let mut weights = [0; POINTS * STATES];
    let sawtooth = Sawtooth::of(standing, &mut weights);
    let below = |action: usize, choices: &[u16], row: &mut [i64]| {
        let mut room = [0; STATES];
        let f = foreseen(model, standing.entries, action, choices, &mut room);
        for (entry, backup) in row.iter_mut().zip(backups(model, action, f)) {
            *entry = backup.div_euclid(K);
        }
    };
    let least = |p: &[u32]| {
        let mut room = [0; STATES];
        let p = whole(p, &mut room);
        let least = |a: usize| {
            let (mut room, mut next) = ([0; STATES], [0; STATES]);
            let u = moved(model, p, a, &mut room);
            let ceilings: i64 = (0..model.k).map(|o| sawtooth.ceiling(successor(model, u, a, o, &mut next))).sum();
            -(-(earned(model, p, a) + model.g * ceilings)).div_euclid(K)
        };
        (0..model.m).map(least).max().unwrap_or(0)
    };
    let reach = reach(model, standing.masks);
    let loses = |action: usize, choices: &[u16]| {
        let all = full_mask(model.n);
        reach.as_ref().map_or(false, |reach| reach.loses(model, standing.masks, action, all, choices))
    };
    solver_file::adopt((model, *number, standing.actions.len()), files, points, level, loses, below, least)
}

fn worth(tables: &Tables, graph: &Graph, asked: Question) -> Answer<i64> {
    let model = judge(tables)?;
    let (actions, next) = nodes(&model, graph, asked)?;
    let (n, k) = (model.n, model.k);
    let (mut worths, mut more) = ([0; NODES * STATES], [0; NODES * STATES]);
    for _ in 0..asked.steps {
        for ((&a, next), row) in actions.iter().zip(next.chunks_exact(k)).zip(more.chunks_exact_mut(n)) {
            let mut room = [0; STATES];
            let f = foreseen(&model, &worths, a.into(), next, &mut room);
            for (worth, backup) in row.iter_mut().zip(backups(&model, a.into(), f)) {
                *worth = backup.div_euclid(K);
            }
        }
        std::mem::swap(&mut worths, &mut more);
    }
    Ok(worths[asked.node as usize * n + asked.state as usize])
}
