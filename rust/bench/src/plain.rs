//! The obvious form: document 01's equations as they stand, in i64.
//!
//! Each sum is written where the document has it, a drop is divided state by state, and nothing is kept from one sum to the
//! next.

use crate::limits::*;
use crate::plain_file;
use crate::solver_file::{self, Files};
use crate::whole::Whole;
use biidhaqun::slices::{Answers, Certifier, Graph, Level, Tables, Totals, TotalsWithin};
use compare::gen::Question;

pub const PLAIN: Whole = Whole {
    read: plain_file::read,
    write: plain_file::write,
    judge,
    examine,
    offer,
    totals,
    within,
    each,
    build,
    adopt,
    worth,
};

impl Model<'_> {
    fn t(&self, s: usize, a: usize, s2: usize) -> i64 {
        i64::from(self.t[(a * self.n + s) * self.n + s2])
    }

    fn o(&self, a: usize, s2: usize, o: usize) -> i64 {
        i64::from(self.o[(a * self.n + s2) * self.k + o])
    }

    fn r(&self, s: usize, a: usize) -> i64 {
        self.r[a * self.n + s]
    }

    /// q(s') is the sum over s of p(s) × T × O.
    fn successor(&self, p: &[i64], a: usize, o: usize) -> Vec<i64> {
        let q = |s2| (0..self.n).map(|s| p[s] * self.t(s, a, s2) * self.o(a, s2, o)).sum();
        (0..self.n).map(q).collect()
    }

    /// K × R + g × the sum over s' and o of T × O × (the entry at s' of the vector chosen for o).
    fn vector_backup(&self, entries: &[i64], s: usize, a: usize, choices: &[u16]) -> i64 {
        let mut sum = 0;
        for s2 in 0..self.n {
            for (o, &choice) in choices.iter().enumerate() {
                sum += self.t(s, a, s2) * self.o(a, s2, o) * entries[usize::from(choice) * self.n + s2];
            }
        }
        K * self.r(s, a) + self.g * sum
    }

    /// Whether a covered state reaches, with T × O above 0, a state that the vector chosen does not cover.
    fn loses(&self, masks: &[u64], a: usize, mask: u64, choices: &[u16]) -> bool {
        let reached = |s, s2, o| self.t(s, a, s2) * self.o(a, s2, o) > 0;
        let lost = |s2: usize, o: usize| !covers(masks[usize::from(choices[o])], s2);
        let from = |s| (0..self.n).any(|s2| (0..self.k).any(|o| reached(s, s2, o) && lost(s2, o)));
        (0..self.n).any(|s| covers(mask, s) && from(s))
    }

    /// K × p·R + g × the sum over o of the ceiling at q.
    fn ceiling_backup(&self, level: &Cut, p: &[i64], a: usize) -> i64 {
        let earned: i64 = (0..self.n).map(|s| p[s] * self.r(s, a)).sum();
        let ceilings: i64 = (0..self.k).map(|o| ceiling(level, &self.successor(p, a, o))).sum();
        K * earned + self.g * ceilings
    }

    /// K × R + g × what follows, over K and rounded up, by action and state.
    fn stepped(&self, follows: impl Fn(usize, usize) -> i64) -> Vec<i64> {
        let entry = |a, s| -(-(K * self.r(s, a) + self.g * follows(a, s))).div_euclid(K);
        (0..self.m * self.n).map(|cell| entry(cell / self.n, cell % self.n)).collect()
    }

    /// The informed rows of the next level: the sum over o of the largest over a' of the sum over s' of T × O × (the row of
    /// a' at s') follows.
    fn informed(&self, rows: &[i64]) -> Vec<i64> {
        self.stepped(|a, s| {
            let seen = |row: &[i64], o| (0..self.n).map(|s2| self.t(s, a, s2) * self.o(a, s2, o) * row[s2]).sum();
            (0..self.k).map(|o| best_row(rows.chunks(self.n).map(|row| seen(row, o)))).sum()
        })
    }

    /// The QMDP rows of the next level: the sum over s' of T × 1,000 × (the largest over a' of the row of a' at s') follows.
    fn qmdp(&self, rows: &[i64]) -> Vec<i64> {
        let known = |s2: usize| best_row(rows.chunks(self.n).map(|row| row[s2]));
        self.stepped(|a, s| (0..self.n).map(|s2| self.t(s, a, s2) * THOUSAND * known(s2)).sum())
    }
}

/// The largest of what the rows have; a model has an action.
fn best_row(values: impl Iterator<Item = i64>) -> i64 {
    values.max().unwrap_or(0)
}

/// 3, 5, 6.
fn judge(tables: &Tables) -> Answer<Model<'_>> {
    let model = match Model::of(tables) {
        Some(model) => model,
        None => return refused(3, 0),
    };
    let thousandths = |&cell: &u16| i64::from(cell) <= THOUSAND;
    let rewards = model.r.iter().all(|cell| (-REWARD..=REWARD).contains(cell));
    if !(model.t.iter().all(thousandths) && model.o.iter().all(thousandths) && rewards) {
        return refused(3, 0);
    }
    let wrong = |row: &[u16]| row.iter().map(|&cell| i64::from(cell)).sum::<i64>() != THOUSAND;
    refuse(5, model.t.chunks(model.n).position(wrong))?;
    refuse(6, model.o.chunks(model.k).position(wrong))?;
    Ok(model)
}

fn whole(weights: &[u32]) -> Vec<i64> {
    weights.iter().map(|&weight| i64::from(weight)).collect()
}

/// The first largest of a list that is not empty.
fn first_largest(values: impl Iterator<Item = i64>) -> (usize, i64) {
    let mut best = (0, i64::MIN);
    for (at, value) in values.enumerate() {
        if value > best.1 {
            best = (at, value);
        }
    }
    best
}

fn corner(n: usize, state: usize) -> Vec<i64> {
    (0..n).map(|s| i64::from(s == state)).collect()
}

/// What the weights of a point total, if that is 1 to 100.
fn total(weights: &[u32]) -> Option<i64> {
    let total = whole(weights).iter().sum();
    (1..=TOTAL).contains(&total).then_some(total)
}

/// Corners·q less the largest drop, or less 0.
fn ceiling(level: &Cut, q: &[i64]) -> i64 {
    let drop = |(p, value): (&[u32], &i64)| {
        let p = whole(p);
        let gain = dot(level.corners, &p) - value;
        if gain <= 0 {
            return 0;
        }
        let weighted = q.iter().zip(&p).filter(|(_, &p)| p > 0);
        weighted.map(|(q, p)| q * gain / p).min().unwrap_or(0)
    };
    let points = level.weights.chunks(q.len()).zip(level.values);
    dot(level.corners, q) - points.map(drop).max().unwrap_or(0)
}

/// 11: the first vector, else corner, else point outside the range of level t. Points that get 12 are passed over.
fn first_outside(level: &Cut, n: usize, t: usize) -> Option<usize> {
    let end = REWARD * t as i64;
    let outside = |value: &i64, end: i64| !(-end..=end).contains(value);
    let rows = || level.entries.chunks(n).zip(level.masks);
    let vector = rows().position(|(row, &mask)| (0..n).any(|s| covers(mask, s) && outside(&row[s], end)));
    let corner = level.corners.iter().position(|corner| outside(corner, end));
    let outlying = |(p, value): (&[u32], &i64)| total(p).map_or(false, |total| outside(value, total * end));
    let point = level.weights.chunks(n).zip(level.values).position(outlying);
    vector.or(corner).or(point)
}

/// 12.
fn first_untotalled(weights: &[u32], n: usize) -> Option<usize> {
    weights.chunks(n).position(|p| total(p).is_none())
}

/// 7.
fn examine<'a>(tables: &'a Tables, certifier: &'a Certifier) -> Answer<Examined<'a>> {
    examined(judge(tables), certifier, |level, n, number| {
        first_outside(level, n, number).is_none() && first_untotalled(level.weights, n).is_none()
    })
}

fn offer(tables: &Tables, certifier: &mut Certifier, level: &Level) -> Answer<()> {
    let (model, number, standing) = examine(tables, certifier)?;
    let (n, k) = (model.n, model.k);
    if number == LEVELS {
        return refused(8, 0);
    }
    let offered = match Cut::offered(level, n, k) {
        Some(offered) if offered.has_room_in(certifier) => offered,
        _ => return refused(9, 0),
    };
    let vectors = || 0..offered.actions.len();
    let action = |v: usize| usize::from(offered.actions[v]);
    let choices = |v: usize| &offered.choices[v * k..(v + 1) * k];
    let missing = |&v: &usize| {
        action(v) >= model.m || choices(v).iter().any(|&chosen| usize::from(chosen) >= standing.actions.len())
    };
    refuse(10, vectors().find(missing))?;
    refuse(11, first_outside(&offered, n, number + 1))?;
    refuse(12, first_untotalled(offered.weights, n))?;
    let loses = |&v: &usize| model.loses(standing.masks, action(v), offered.masks[v], choices(v));
    refuse(21, vectors().find(loses))?;
    let above = |&v: &usize| {
        let backup = |s| model.vector_backup(standing.entries, s, action(v), choices(v));
        (0..n).any(|s| covers(offered.masks[v], s) && K * offered.entries[v * n + s] > backup(s))
    };
    refuse(13, vectors().find(above))?;
    let suffices = |value: i64, p: &[i64]| (0..model.m).all(|a| K * value >= model.ceiling_backup(&standing, p, a));
    refuse(14, (0..n).find(|&s| !suffices(offered.corners[s], &corner(n, s))))?;
    let below = |(p, &value): (&[u32], &i64)| !suffices(value, &whole(p));
    refuse(15, offered.weights.chunks(n).zip(offered.values).position(below))?;
    let (informed, qmdp) = (model.informed(standing.informed), model.qmdp(standing.qmdp));
    Cut { informed: &informed, qmdp: &qmdp, ..offered }.stand(number + 1, certifier);
    Ok(())
}

/// 7, 16.
fn standing<'a>(tables: &'a Tables, certifier: &'a Certifier) -> Answer<(Model<'a>, Cut<'a>)> {
    risen(examine(tables, certifier)?)
}

fn totals_at(model: &Model, level: &Cut, weights: &[u32]) -> Answer<Totals> {
    let b = whole(mixture(weights, model.n)?);
    let counts = |&v: &usize| (0..model.n).all(|s| b[s] == 0 || covers(level.masks[v], s));
    let counting: Vec<usize> = (0..level.masks.len()).filter(counts).collect();
    if counting.is_empty() {
        return refused(22, 0);
    }
    let (first, lower) = first_largest(counting.iter().map(|&v| dot(&level.entries[v * model.n..], &b)));
    let informed = best_row(level.informed.chunks(model.n).map(|row| dot(row, &b)));
    Ok(totals_of(lower, level.actions[counting[first]], ceiling(level, &b), informed))
}

fn totals(tables: &Tables, certifier: &Certifier, mixture: &[u32]) -> Answer<Totals> {
    let (model, level) = standing(tables, certifier)?;
    totals_at(&model, &level, mixture)
}

fn each(tables: &Tables, certifier: &Certifier, mixtures: Weighed, answers: &mut Answers) -> Answer<()> {
    let (model, level) = standing(tables, certifier)?;
    answer(model.n, mixtures, answers, |mixture| totals_at(&model, &level, mixture))
}

/// The sum of weight × entry, with one weight for entries of 0 or more and another for the others.
fn sure(over: &[i64], under: &[i64], entries: &[i64]) -> i64 {
    (0..over.len()).map(|s| if entries[s] < 0 { under[s] } else { over[s] } * entries[s]).sum()
}

fn within(tables: &Tables, certifier: &Certifier, lows: &[u32], highs: &[u32]) -> Answer<TotalsWithin> {
    let (model, level) = standing(tables, certifier)?;
    let (lows, highs) = ranges(lows, highs, model.n)?;
    let (low, high) = (whole(lows), whole(highs));
    let counts = |&v: &usize| (0..model.n).all(|s| high[s] == 0 || covers(level.masks[v], s));
    let counting = (0..level.masks.len()).filter(counts);
    match counting.map(|v| sure(&low, &high, &level.entries[v * model.n..])).max() {
        Some(lower) => Ok(TotalsWithin { lower, upper: sure(&high, &low, level.corners), ..TotalsWithin::default() }),
        None => refused(22, 0),
    }
}

/// An alpha vector on its own.
struct Vector {
    action: usize,
    choices: Vec<u16>,
    entries: Vec<i64>,
}

/// The vector of an action at weights p, which goes on with `wide` ones.
fn action_vector(model: &Model, level: &Cut, wide: &[usize], p: &[i64], a: usize) -> Vector {
    let choice = |o| {
        let q = model.successor(p, a, o);
        wide[first_largest(wide.iter().map(|&v| dot(&level.entries[v * model.n..], &q))).0] as u16
    };
    let choices: Vec<u16> = (0..model.k).map(choice).collect();
    let entry = |s| model.vector_backup(level.entries, s, a, &choices).div_euclid(K);
    let entries = (0..model.n).map(entry).collect();
    Vector { action: a, choices, entries }
}

/// The first of the actions' vectors with the largest product with p.
fn best_vector(model: &Model, level: &Cut, wide: &[usize], p: &[i64]) -> Vector {
    let mut vectors: Vec<Vector> = (0..model.m).map(|a| action_vector(model, level, wide, p, a)).collect();
    let (first, _) = first_largest(vectors.iter().map(|vector| dot(&vector.entries, p)));
    vectors.swap_remove(first)
}

/// The least value that covers every action's backup.
fn least_value(model: &Model, level: &Cut, p: &[i64]) -> i64 {
    let least = |a| -(-model.ceiling_backup(level, p, a)).div_euclid(K);
    (0..model.m).map(least).max().unwrap_or(0)
}

fn build(tables: &Tables, certifier: &Certifier, (count, points): Weighed, level: &mut Level) -> Answer<()> {
    let (model, number, standing) = examine(tables, certifier)?;
    let (n, k) = (model.n, model.k);
    if number == LEVELS {
        return refused(8, 0);
    }
    if count > BUILT_POINTS || points.len() < count * n || !has_room(level, n, k, n + count, count) {
        return refused(9, 0);
    }
    let points = &points[..count * n];
    refuse(12, first_untotalled(points, n))?;
    let wide: Vec<usize> =
        (0..standing.masks.len()).filter(|&v| (0..n).all(|s| covers(standing.masks[v], s))).collect();
    if wide.is_empty() {
        return refused(22, 0);
    }
    let corners = (0..n).map(|s| corner(n, s));
    for (v, p) in corners.chain(points.chunks(n).map(whole)).enumerate() {
        let Vector { action, choices, entries } = best_vector(&model, &standing, &wide, &p);
        level.actions[v] = action as u8;
        level.choices[v * k..(v + 1) * k].copy_from_slice(&choices);
        level.masks[v] = full_mask(n);
        level.entries[v * n..(v + 1) * n].copy_from_slice(&entries);
        let value = least_value(&model, &standing, &p);
        if v < n {
            level.corners[v] = value;
        } else {
            level.values[v - n] = value;
        }
    }
    Ok(())
}

fn adopt(upon: &Examined, files: &Files, points: Weighed, level: &mut Level) -> Answer<usize> {
    let (model, number, standing) = upon;
    let backups = |action: usize, choices: &[u16], row: &mut [i64]| {
        for (s, entry) in row.iter_mut().enumerate() {
            *entry = model.vector_backup(standing.entries, s, action, choices).div_euclid(K);
        }
    };
    let loses = |action: usize, choices: &[u16]| model.loses(standing.masks, action, full_mask(model.n), choices);
    let least = |p: &[u32]| least_value(model, standing, &whole(p));
    solver_file::adopt((model, *number, standing.actions.len()), files, points, level, loses, backups, least)
}

/// The equation as it stands, for all nodes and states at each step.
fn worth(tables: &Tables, graph: &Graph, asked: Question) -> Answer<i64> {
    let model = judge(tables)?;
    let (actions, next) = nodes(&model, graph, asked)?;
    let n = model.n;
    let mut worths = vec![0; actions.len() * n];
    for _ in 0..asked.steps {
        let mut more = Vec::new();
        for (&action, next) in actions.iter().zip(next.chunks(model.k)) {
            let backup = |s| model.vector_backup(&worths, s, usize::from(action), next).div_euclid(K);
            more.extend((0..n).map(backup));
        }
        worths = more;
    }
    Ok(worths[asked.node as usize * n + asked.state as usize])
}
