//! Lists of offers in blocks, of any content, upon certifiers of any content.

use crate::gen::{self, Shape, Step, DOCUMENT};
use crate::lent::{self, Call, Slice};
use crate::rng::Rng;
use crate::single;
use biidhaqun::slices::{Level, Offers};
use reference::{Certifier, POINTS, VECTORS};

/// A random list: accepted and refused levels in turn, upon a certifier that was climbed to or holds anything, in blocks that
/// are as large as they must be, larger, or too small.
pub fn random(rng: &mut Rng) -> Call {
    let shape = gen::shape(rng);
    let (certifier, steps) = if rng.once_in(3) {
        gen::handed(rng, shape)
    } else {
        let wanted = rng.below(4);
        let list = gen::list(rng, shape, wanted);
        let mut certifier = reference::open(&list.tables, &DOCUMENT).expect("generated tables open");
        // Some of the list stands already.
        let stands = rng.index(list.steps.len() / 2 + 1);
        let _ = offered(&mut certifier, &list.steps[..stands]);
        if rng.once_in(8) {
            certifier.level = rng.pick(&[98, 99, 100]);
        }
        (certifier, list.steps[stands..].to_vec())
    };
    let mut levels = offered(&mut certifier.clone(), &steps);
    if !levels.is_empty() && rng.once_in(3) {
        let (one, other) = (rng.index(levels.len()), rng.index(levels.len()));
        match rng.below(3) {
            0 => levels.swap(one, other),
            1 => levels.insert(one, levels[other].clone()),
            _ => levels.truncate(one),
        }
    }
    let (n, k) = (shape.n, shape.k);
    let levels: Vec<Level> = levels.iter().map(|level| lent::level(level, n, k)).collect();
    let few = gen::most_vectors(n);
    let (vectors, points) = largest(&levels, few);
    let block = |rng: &mut Rng, largest: usize, most: usize| match rng.below(24) {
        0 => 0,
        1 => largest.saturating_sub(1),
        2 => most + 1,
        3 => most,
        4..=9 => (largest + 1 + rng.index(4)).min(most),
        _ => largest,
    };
    let (mut block_vectors, block_points) = (block(rng, vectors, few), block(rng, points, POINTS));
    if rng.once_in(200) {
        block_vectors = rng.pick(&[VECTORS, VECTORS + 1]);
    }
    let whole = levels.iter().find(|level| level.vectors <= few && level.points <= POINTS);
    let mut offers = match whole {
        Some(level) if rng.once_in(8) => split(rng, level, shape),
        _ => packed(rng, &levels, (block_vectors, block_points), shape),
    };
    match rng.below(30) {
        0 => offers.count += 1,
        1 => offers.count = rng.pick(&[usize::MAX, usize::MAX / 32, 1 << 59, 1 << 60, 1 << 61]),
        2 => offers.count = offers.count.saturating_sub(1),
        _ => {}
    }
    // Room for the largest of them, now and then for what stands alone.
    let room = if rng.once_in(6) { (0, 0) } else { (vectors, points) };
    call(rng, shape, &certifier, offers, room)
}

/// A list that is served, of which no slice is empty, with an acceptance, a refusal and an acceptance.
pub fn served(rng: &mut Rng, shape: Shape, certifier: &Certifier) -> Call {
    let mut climbed = certifier.clone();
    let mut levels = Vec::new();
    for _ in 0..2 {
        let count = 1 + rng.index(3);
        let points = gen::points(rng, shape.n, count);
        let mut built = reference::build(&climbed, &points, &DOCUMENT).expect("points within the limits");
        levels.push(gen::nudged(rng, &built, shape));
        // One that covers all states stays, to be built upon.
        built.masks.iter_mut().skip(1).for_each(|mask| *mask = gen::mask(rng, shape.n));
        levels.push(built.clone());
        reference::offer(&mut climbed, &built, &DOCUMENT).expect("a built level is accepted");
    }
    let levels: Vec<Level> = levels[1..].iter().map(|level| lent::level(level, shape.n, shape.k)).collect();
    let (vectors, points) = largest(&levels, gen::most_vectors(shape.n));
    let blocks = (vectors + rng.index(3), points + rng.index(3));
    let offers = packed(rng, &levels, blocks, shape);
    call(rng, shape, certifier, offers, (vectors, points))
}

/// Makes the offers and buildings among steps, and gives all levels that were offered.
fn offered(certifier: &mut Certifier, steps: &[Step]) -> Vec<reference::Level> {
    let mut levels = Vec::new();
    for step in steps {
        let level = match step {
            Step::Offer(level) => Ok(level.clone()),
            Step::Raise(points) => reference::build(certifier, points, &DOCUMENT),
            Step::Reprice(new) => {
                let _ = reference::reprice(certifier, new, &DOCUMENT);
                continue;
            }
            Step::Totals(_) | Step::Within(..) | Step::Build(_) => continue,
        };
        if let Ok(level) = level {
            let _ = reference::offer(certifier, &level, &DOCUMENT);
            levels.push(level);
        }
    }
    levels
}

/// The most vectors and points of levels, those left out that say more than they have here.
fn largest(levels: &[Level], few: usize) -> (usize, usize) {
    let most = |count: fn(&Level) -> usize, limit: usize| {
        levels.iter().map(count).filter(|&count| count <= limit).max().unwrap_or(0)
    };
    (most(|level| level.vectors, few), most(|level| level.points, POINTS))
}

/// The levels in blocks, with anything behind each.
pub fn packed(rng: &mut Rng, levels: &[Level], (vectors, points): (usize, usize), shape: Shape) -> Offers {
    let Shape { n, k, .. } = shape;
    let mut offers = Offers { block_vectors: vectors, block_points: points, ..Offers::default() };
    for level in levels {
        let mut block = level.clone();
        block.actions.sized(vectors, rng);
        block.choices.sized(vectors * k, rng);
        block.masks.sized(vectors, rng);
        block.entries.sized(vectors * n, rng);
        block.corners.sized(n, rng);
        block.weights.sized(points * n, rng);
        block.values.sized(points, rng);
        offers.push(&block, n, k);
    }
    offers
}

/// A level that lies over two blocks, each with room for half of it.
fn split(rng: &mut Rng, level: &Level, shape: Shape) -> Offers {
    let Shape { n, k, .. } = shape;
    let (vectors, points) = ((level.vectors + 1) / 2, (level.points + 1) / 2);
    let Level { mut actions, mut choices, mut masks, mut entries, mut corners, mut weights, mut values, .. } =
        level.clone();
    actions.sized(2 * vectors, rng);
    choices.sized(2 * vectors * k, rng);
    masks.sized(2 * vectors, rng);
    entries.sized(2 * vectors * n, rng);
    corners.sized(2 * n, rng);
    weights.sized(2 * points * n, rng);
    values.sized(2 * points, rng);
    Offers {
        count: 2,
        block_vectors: vectors,
        block_points: points,
        vectors: vec![level.vectors; 2],
        points: vec![level.points; 2],
        actions,
        choices,
        masks,
        entries,
        corners,
        weights,
        values,
    }
}

/// The call, with room for a level of so many vectors and points in the certifier.
pub fn call(rng: &mut Rng, shape: Shape, certifier: &Certifier, offers: Offers, room: (usize, usize)) -> Call {
    let room = Level::zeros(shape.n, shape.k, room.0, room.1);
    let standing = single::sized(rng, lent::certifier(certifier), &room);
    Call::Replay { tables: lent::tables(&certifier.tables), certifier: standing, offers }
}

#[cfg(test)]
mod tests {
    use super::*;
    use crate::copied::BY_THE_DOCUMENT;
    use std::collections::BTreeMap;

    /// Lists are refused whole, and served with as many acceptances as offers, fewer, and none.
    #[test]
    fn every_end_of_a_list_occurs() {
        let mut seen: BTreeMap<i128, u64> = BTreeMap::new();
        let (mut all, mut some, mut none, mut empty) = (0, 0, 0, 0);
        for number in 0..600 {
            let call = random(&mut Rng::for_case(4, "replay", number));
            assert!(!call.to_string().is_empty());
            let (answer, _) = call.made(&BY_THE_DOCUMENT);
            *seen.entry(answer[0]).or_insert(0) += 1;
            let count = match &call {
                Call::Replay { offers, .. } => offers.count as i128,
                _ => panic!("no list"),
            };
            match answer[..] {
                [0, 0, accepted] if count == 0 => empty += 1 + accepted,
                [0, 0, accepted] if accepted == count => all += 1,
                [0, 0, 0] => none += 1,
                [0, 0, _] => some += 1,
                [_, 0, accepted] => assert_eq!(accepted, 0),
                _ => panic!("{:?}", answer),
            }
        }
        assert_eq!(seen.keys().copied().collect::<Vec<_>>(), [0, 7, 9]);
        assert!([all, some, none, empty].iter().all(|&count| count > 20), "{:?}", (all, some, none, empty));
    }

    /// A list leaves what its offers leave one after the other, each lent by itself.
    #[test]
    fn a_list_is_its_offers_in_turn() {
        for number in 0..300 {
            let mut rng = Rng::for_case(5, "replay", number);
            let call = random(&mut rng);
            let (answer, after) = call.made(&BY_THE_DOCUMENT);
            let (tables, mut certifier, offers) = match call {
                Call::Replay { tables, certifier, offers } => (tables, certifier, offers),
                _ => panic!("no list"),
            };
            if answer[0] != 0 {
                continue;
            }
            let (n, k) = (tables.states, tables.observations);
            let (v, p) = (offers.block_vectors, offers.block_points);
            let mut accepted = 0;
            for at in 0..offers.count {
                let level = Level {
                    vectors: offers.vectors[at],
                    points: offers.points[at],
                    actions: offers.actions[at * v..(at + 1) * v].to_vec(),
                    choices: offers.choices[at * v * k..(at + 1) * v * k].to_vec(),
                    masks: offers.masks[at * v..(at + 1) * v].to_vec(),
                    entries: offers.entries[at * v * n..(at + 1) * v * n].to_vec(),
                    corners: offers.corners[at * n..(at + 1) * n].to_vec(),
                    weights: offers.weights[at * p * n..(at + 1) * p * n].to_vec(),
                    values: offers.values[at * p..(at + 1) * p].to_vec(),
                };
                let offer = Call::Offer { tables: tables.clone(), list: Vec::new(), certifier, level };
                let (ended, left) = offer.made(&BY_THE_DOCUMENT);
                accepted += i128::from(ended[0] == 0);
                certifier = match left {
                    Call::Offer { certifier, .. } => certifier,
                    _ => panic!("no offer"),
                };
            }
            assert_eq!(answer[2], accepted, "replay:{}", number);
            assert_eq!(after, Call::Replay { tables, certifier, offers }, "replay:{}", number);
        }
    }
}
