//! What all forms in whole numbers share: the limits, lent slices cut to their counts, and how a call ends.

pub use biidhaqun::slices::{
    full_mask, ACTIONS, BUILT_POINTS, FILE_BYTES, LEVELS, NODES, OBSERVATIONS, POINTS, SOLVER_BYTES, STATES, STEPS,
    VECTORS, WRITTEN_STATES,
};
use biidhaqun::slices::{Answers, Certifier, Graph, Level, Offers, Refusal, Replayed, Tables, Totals};
use compare::gen::Question;

pub const THOUSAND: i64 = 1_000;
pub const REWARD: i64 = 100_000;
/// What start numbers total, and a point's weights at most.
pub const TOTAL: i64 = 100;
pub const WEIGHT: u32 = 1_000_000;
/// Products of two thousandths and a discount are counted in this.
pub const K: i64 = 1_000_000_000;

/// What a call answers, or its refusal.
pub type Answer<Value> = Result<Value, Refusal>;

/// A count, and the weights of so many mixtures or points.
pub type Weighed<'a> = (usize, &'a [u32]);

pub fn refused<Value>(number: u64, place: usize) -> Answer<Value> {
    Err(Refusal { number, place })
}

/// A refusal at the offender, if there is one.
pub fn refuse(number: u64, offender: Option<usize>) -> Answer<()> {
    offender.map_or(Ok(()), |place| refused(number, place))
}

pub fn ended(answer: Answer<()>) -> Refusal {
    answer.err().unwrap_or_default()
}

#[inline]
pub fn dot(left: &[i64], right: &[i64]) -> i64 {
    left.iter().zip(right).map(|(x, y)| x * y).sum()
}

/// Whether a mask covers a state.
pub fn covers(mask: u64, s: usize) -> bool {
    mask >> s & 1 == 1
}

/// Tables cut to their counts.
#[derive(Clone, Copy)]
pub struct Model<'a> {
    pub n: usize,
    pub m: usize,
    pub k: usize,
    pub g: i64,
    pub t: &'a [u16],
    pub o: &'a [u16],
    pub r: &'a [i64],
}

impl<'a> Model<'a> {
    /// If the counts are within their limits, the discount too, and no slice is too short.
    pub fn of(tables: &'a Tables) -> Option<Model<'a>> {
        let Tables { states: n, actions: m, observations: k, discount, .. } = *tables;
        if !tables.counts_fit() || discount > THOUSAND as u64 {
            return None;
        }
        let (t, o) = (tables.transition.get(..m * n * n)?, tables.observation.get(..m * n * k)?);
        Some(Model { n, m, k, g: discount as i64, t, o, r: tables.reward.get(..m * n)? })
    }
}

/// A level cut to its counts, and the rows beside it; an offered level has none until it is accepted.
#[derive(Clone, Copy)]
pub struct Cut<'a> {
    pub actions: &'a [u8],
    pub choices: &'a [u16],
    pub masks: &'a [u64],
    pub entries: &'a [i64],
    pub corners: &'a [i64],
    pub weights: &'a [u32],
    pub values: &'a [i64],
    pub informed: &'a [i64],
    pub qmdp: &'a [i64],
}

/// 9: whether the counts of a level are within their limits.
fn counts_fit(vectors: usize, points: usize) -> bool {
    (1..=VECTORS).contains(&vectors) && points <= POINTS
}

impl<'a> Cut<'a> {
    /// An offered level, if its counts are within their limits and no slice is too short.
    pub fn offered(level: &'a Level, n: usize, k: usize) -> Option<Cut<'a>> {
        let Level { vectors, points, .. } = *level;
        if !counts_fit(vectors, points) {
            return None;
        }
        Some(Cut {
            actions: level.actions.get(..vectors)?,
            choices: level.choices.get(..vectors * k)?,
            masks: level.masks.get(..vectors)?,
            entries: level.entries.get(..vectors * n)?,
            corners: level.corners.get(..n)?,
            weights: level.weights.get(..points * n)?,
            values: level.values.get(..points)?,
            informed: &[],
            qmdp: &[],
        })
    }

    /// What stands, likewise, and its number. Its choices are read nowhere, and left out.
    pub fn standing(certifier: &'a Certifier, m: usize, n: usize) -> Option<(usize, Cut<'a>)> {
        let (number, vectors, points) = match certifier.state[..] {
            [number, vectors, points, ..] if number <= LEVELS && counts_fit(vectors, points) => {
                (number, vectors, points)
            }
            _ => return None,
        };
        let level = Cut {
            actions: certifier.actions.get(..vectors)?,
            choices: &[],
            masks: certifier.masks.get(..vectors)?,
            entries: certifier.entries.get(..vectors * n)?,
            corners: certifier.corners.get(..n)?,
            weights: certifier.weights.get(..points * n)?,
            values: certifier.values.get(..points)?,
            informed: certifier.informed.get(..m * n)?,
            qmdp: certifier.qmdp.get(..m * n)?,
        };
        Some((number, level))
    }

    /// 7: whether the rows keep to the range of level t.
    pub fn rows_fit(&self, t: usize) -> bool {
        let end = REWARD * t as i64;
        self.informed.iter().chain(self.qmdp).all(|entry| (-end..=end).contains(entry))
    }

    /// Whether a certifier's slices have room for the level.
    pub fn has_room_in(&self, certifier: &Certifier) -> bool {
        certifier.state.len() >= 3
            && certifier.actions.len() >= self.actions.len()
            && certifier.choices.len() >= self.choices.len()
            && certifier.masks.len() >= self.masks.len()
            && certifier.entries.len() >= self.entries.len()
            && certifier.corners.len() >= self.corners.len()
            && certifier.weights.len() >= self.weights.len()
            && certifier.values.len() >= self.values.len()
            && certifier.informed.len() >= self.informed.len()
            && certifier.qmdp.len() >= self.qmdp.len()
    }

    /// Lays the level over a certifier's slices, with 0 for entries that are not covered.
    pub fn stand(&self, number: usize, certifier: &mut Certifier) {
        let n = self.corners.len();
        let full = full_mask(n);
        certifier.state[..3].copy_from_slice(&[number, self.actions.len(), self.values.len()]);
        certifier.actions[..self.actions.len()].copy_from_slice(self.actions);
        certifier.choices[..self.choices.len()].copy_from_slice(self.choices);
        for (cell, mask) in certifier.masks.iter_mut().zip(self.masks) {
            *cell = mask & full;
        }
        certifier.entries[..self.entries.len()].copy_from_slice(self.entries);
        for (entries, &mask) in certifier.entries.chunks_exact_mut(n).zip(self.masks) {
            if mask & full != full {
                entries.iter_mut().enumerate().filter(|(s, _)| !covers(mask, *s)).for_each(|(_, entry)| *entry = 0);
            }
        }
        certifier.corners[..self.corners.len()].copy_from_slice(self.corners);
        certifier.weights[..self.weights.len()].copy_from_slice(self.weights);
        certifier.values[..self.values.len()].copy_from_slice(self.values);
        certifier.informed[..self.informed.len()].copy_from_slice(self.informed);
        certifier.qmdp[..self.qmdp.len()].copy_from_slice(self.qmdp);
    }
}

/// A model, and what stands upon it with its number.
pub type Examined<'a> = (Model<'a>, usize, Cut<'a>);

/// 7: tables that were judged, and a certifier upon them that is within its limits; `holds` tests 11 and 12.
pub fn examined<'a>(
    judged: Answer<Model<'a>>,
    certifier: &'a Certifier,
    holds: impl FnOnce(&Cut, usize, usize) -> bool,
) -> Answer<Examined<'a>> {
    let seven = Refusal { number: 7, place: 0 };
    let model = judged.map_err(|_| seven)?;
    let (number, level) = Cut::standing(certifier, model.m, model.n).ok_or(seven)?;
    let actions = level.actions.iter().all(|&action| usize::from(action) < model.m);
    if actions && holds(&level, model.n, number) && level.rows_fit(number) {
        Ok((model, number, level))
    } else {
        Err(seven)
    }
}

/// 16: what stands above level 0.
pub fn risen<'a>((model, number, level): Examined<'a>) -> Answer<(Model<'a>, Cut<'a>)> {
    if number == 0 {
        return refused(16, 0);
    }
    Ok((model, level))
}

/// Level 0 in a certifier's slices.
pub fn open(model: Model, certifier: &mut Certifier) -> Answer<()> {
    let zeros = [0; STATES];
    let corners = &zeros[..model.n];
    let choices = &[0; OBSERVATIONS][..model.k];
    let rows = &[0; ACTIONS * STATES][..model.m * model.n];
    let fresh = Cut {
        actions: &[0],
        choices,
        masks: &[full_mask(model.n)],
        entries: corners,
        corners,
        weights: &[],
        values: &[],
        informed: rows,
        qmdp: rows,
    };
    if !fresh.has_room_in(certifier) {
        return refused(9, 0);
    }
    fresh.stand(0, certifier);
    Ok(())
}

/// The level of a block, in slices as long as the block; none where one is too short.
pub fn block(offers: &Offers, at: usize, n: usize, k: usize) -> Option<Level> {
    fn cut<Cell: Clone>(slice: &[Cell], at: usize, length: usize) -> Option<Vec<Cell>> {
        slice.get(at.checked_mul(length)?..)?.get(..length).map(<[Cell]>::to_vec)
    }
    let (v, p) = (offers.block_vectors, offers.block_points);
    Some(Level {
        vectors: *offers.vectors.get(at)?,
        points: *offers.points.get(at)?,
        actions: cut(&offers.actions, at, v)?,
        choices: cut(&offers.choices, at, v * k)?,
        masks: cut(&offers.masks, at, v)?,
        entries: cut(&offers.entries, at, v * n)?,
        corners: cut(&offers.corners, at, n)?,
        weights: cut(&offers.weights, at, p * n)?,
        values: cut(&offers.values, at, p)?,
    })
}

/// A list of offers upon a certifier that was examined, with the states and observations of its model: 9, or how many of them
/// a form accepts.
pub fn replay(
    examined: Answer<(usize, usize)>,
    offers: &Offers,
    mut offer: impl FnMut(&Level) -> Answer<()>,
) -> Replayed {
    let run = |(n, k): (usize, usize)| {
        let level = |at: usize| block(offers, at, n, k);
        let fits = offers.block_vectors <= VECTORS && offers.block_points <= POINTS;
        // All blocks are there if the last is.
        if !fits || (offers.count > 0 && level(offers.count - 1).is_none()) {
            return refused(9, 0);
        }
        Ok((0..offers.count).filter_map(level).filter(|level| offer(level).is_ok()).count())
    };
    match examined.and_then(run) {
        Ok(accepted) => Replayed { accepted, ..Replayed::default() },
        Err(Refusal { number, place }) => Replayed { number, place, accepted: 0 },
    }
}

/// The answer at a mixture: the upper total is the lower of both ceilings.
pub fn totals_of(lower: i64, action: u8, sawtooth: i64, informed: i64) -> Totals {
    let upper = sawtooth.min(informed);
    Totals { lower, upper, gap: upper - lower, action: action.into(), sawtooth, informed, ..Totals::default() }
}

/// A mixture's weights, if there are enough, none is above its limit and not all are 0; or 17.
pub fn mixture(weights: &[u32], n: usize) -> Answer<&[u32]> {
    match weights.get(..n) {
        Some(mixture) if mixture.iter().all(|&weight| weight <= WEIGHT) && mixture.iter().any(|&weight| weight > 0) => {
            Ok(mixture)
        }
        _ => refused(17, 0),
    }
}

/// Lows and highs, if no low is above its high and there are enough of both; or 24, 17. What is missing is 0 for 24.
pub fn ranges<'a>(lows: &'a [u32], highs: &'a [u32], n: usize) -> Answer<(&'a [u32], &'a [u32])> {
    let weight = |list: &[u32], s: usize| list.get(s).copied().unwrap_or(0);
    if (0..n).any(|s| weight(lows, s) > weight(highs, s)) {
        return refused(24, 0);
    }
    match lows.get(..n) {
        Some(lows) => Ok((lows, mixture(highs, n)?)),
        None => refused(17, 0),
    }
}

/// The answers at many mixtures.
pub fn answer(
    n: usize,
    (count, mixtures): Weighed,
    answers: &mut Answers,
    totals: impl Fn(&[u32]) -> Answer<Totals>,
) -> Answer<()> {
    let mixtures = match count.checked_mul(n).and_then(|needed| mixtures.get(..needed)) {
        Some(mixtures) => mixtures,
        None => return refused(17, 0),
    };
    let Answers { numbers, lower, upper, actions } = answers;
    if [numbers.len(), lower.len(), upper.len(), actions.len()].iter().any(|&length| length < count) {
        return refused(9, 0);
    }
    for (at, mixture) in mixtures.chunks_exact(n).enumerate() {
        let totals = totals(mixture).unwrap_or_else(|Refusal { number, .. }| Totals { number, ..Totals::default() });
        numbers[at] = totals.number as u8;
        lower[at] = totals.lower;
        upper[at] = totals.upper;
        actions[at] = totals.action as u8;
    }
    Ok(())
}

/// Whether slices have room for so many vectors, n corners and so many values.
pub fn has_room(level: &Level, n: usize, k: usize, vectors: usize, values: usize) -> bool {
    level.actions.len() >= vectors
        && level.choices.len() >= vectors * k
        && level.masks.len() >= vectors
        && level.entries.len() >= vectors * n
        && level.corners.len() >= n
        && level.values.len() >= values
}

/// The actions and next nodes of a graph, cut to their counts, if what is asked of it is within the limits too; or 18.
pub fn nodes<'a>(model: &Model, graph: &'a Graph, asked: Question) -> Answer<(&'a [u8], &'a [u16])> {
    let nodes = graph.nodes;
    let cut = || Some((graph.actions.get(..nodes)?, graph.next.get(..nodes * model.k)?));
    let (actions, next) = match cut() {
        Some(cut) if (1..=NODES).contains(&nodes) => cut,
        _ => return refused(18, 0),
    };
    let missing = |(&action, next): (&u8, &[u16])| {
        usize::from(action) >= model.m || next.iter().any(|&next| usize::from(next) >= nodes)
    };
    refuse(18, actions.iter().zip(next.chunks_exact(model.k)).position(missing))?;
    if asked.node >= nodes as u64 || asked.state >= model.n as u64 || asked.steps > STEPS as u64 {
        return refused(18, 0);
    }
    Ok((actions, next))
}
