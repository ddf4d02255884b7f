//! The dough model through the library.

use super::*;
use crate::slices::Tables;

const DOUGH: &[u8] = include_bytes!("../../../examples/dough.pomdp");

/// The model, its start, and a certifier after so many built levels.
fn standing(levels: usize) -> (Model, Mixture, Certifier) {
    let (model, start) = Model::read(DOUGH).unwrap();
    let mut certifier = Certifier::open(&model).unwrap();
    for _ in 0..levels {
        let level = certifier.build(&Points::one(&start.weights)).unwrap();
        certifier.offer(&level).unwrap();
    }
    (model, start, certifier)
}

/// The number and the place of a refusal, as the library gives them.
fn refusal<Answer: std::fmt::Debug>(answer: Result<Answer, Error>) -> (u64, usize) {
    match answer.unwrap_err() {
        Error::Refused(refusal) => (refusal.number(), refusal.place.number()),
        Error::Length(length) => panic!("{}", length),
    }
}

#[test]
fn levels_one_and_two() {
    let (_, _, one) = standing(1);
    assert_eq!(one.standing().corners(), [-100, 600]);
    let (_, _, two) = standing(2);
    let at = |weights: &[u32]| two.totals(&Mixture::new(weights)).map(|t| (t.lower, t.upper, t.gap, t.action));
    assert_eq!(at(&[1, 0]), Ok((-51, -50, 1, 0)));
    assert_eq!(at(&[0, 1]), Ok((510, 510, 0, 1)));
    assert!(at(&[0, 1_000_000]).is_ok());
    assert_eq!(refusal(at(&[0, 1_000_001])), (17, 0));
    assert_eq!(refusal(at(&[0, 0])), (17, 0));
    assert_eq!(refusal(at(&[0, u32::MAX])), (17, 0));
}

#[test]
fn many_mixtures_at_once() {
    let (_, _, two) = standing(2);
    let mixtures = [[1, 0], [0, 1], [0, 0], [50, 50], [0, 1_000_001]].map(|weights| Mixture::new(&weights));
    let answers = two.totals_at(&mixtures).unwrap();
    for (answer, mixture) in answers.into_iter().zip(&mixtures) {
        assert_eq!(answer.map_err(Error::from), two.totals(mixture).map(|totals| totals.bounds()));
    }
    assert_eq!(two.totals_at(&[]), Ok(Vec::new()));
    let short = two.totals_at(&[Mixture::new(&[1, 1]), Mixture::new(&[1])]).unwrap_err();
    assert_eq!(short.to_string(), "the weights of mixture 1 are 1, and the model wants 2");
    let (_, _, fresh) = standing(0);
    assert_eq!(refusal(fresh.totals_at(&mixtures)), (16, 0));
}

#[test]
fn weights_within_ranges() {
    let (_, _, two) = standing(2);
    let within = |lows: &[u32], highs: &[u32]| two.totals_within(&Mixture::new(lows), &Mixture::new(highs));
    assert_eq!(within(&[40, 40], &[60, 60]), Ok(TotalsWithin { lower: 6_980, upper: 29_320 }));
    // At one mixture: the totals there, but for the points and the rows.
    let at = two.totals(&Mixture::new(&[50, 50])).unwrap();
    assert_eq!(within(&[50, 50], &[50, 50]), Ok(TotalsWithin { lower: at.lower, upper: 23_900 }));
    assert_eq!(refusal(within(&[2, 0], &[1, 1_000_001])), (24, 0));
    assert_eq!(refusal(within(&[0, 0], &[1, 1_000_001])), (17, 0));
    assert_eq!(refusal(within(&[0, 0], &[0, 0])), (17, 0));
    assert!(matches!(within(&[1], &[1, 1]), Err(Error::Length(_))));
    assert!(matches!(within(&[1, 1], &[1]), Err(Error::Length(_))));
    let (_, _, fresh) = standing(0);
    assert_eq!(refusal(fresh.totals_within(&Mixture::new(&[2, 0]), &Mixture::new(&[1, 0]))), (16, 0));
    // A state that may have weight is to be covered.
    let (_, _, mut narrow) = standing(0);
    narrow.offer(&masked(&narrow, 0, &[(0, 2, [0, -100])])).unwrap();
    let within = |lows: &[u32], highs: &[u32]| narrow.totals_within(&Mixture::new(lows), &Mixture::new(highs));
    assert_eq!(within(&[0, 1], &[0, 2]).map(|within| within.lower), Ok(-200));
    assert_eq!(refusal(within(&[0, 1], &[1, 2])), (22, 0));
}

#[test]
fn offers_and_buildings_from_a_list() {
    let (model, start, by_table) = standing(1);
    let list = model.list().unwrap();
    let mut by_list = by_table.clone().with_list(&list).unwrap();
    let points = Points::one(&start.weights);
    let level = by_list.build(&points).unwrap();
    assert_eq!(Ok(level.clone()), by_table.build(&points));
    let mut wrong = level.clone();
    wrong.entries_mut(0)[0] += 1;
    assert_eq!(by_list.offer(&wrong), by_table.clone().offer(&wrong));
    by_list.offer(&level).unwrap();
    assert_eq!(by_list, standing(2).2);
    // What lies past the list is not read; no words, fewer, or others are no list.
    let with = |words: &[u32]| by_table.clone().with_list(&List::from_words(words)).map(|_| ());
    let mut words = list.words().to_vec();
    let seven = Err(Refusal { rule: Rule::Certifier, place: Place::Whole });
    assert_eq!((with(&words), with(&words[..9]), with(&[])), (Ok(()), seven, seven));
    words.push(u32::MAX);
    assert_eq!(with(&words), Ok(()));
    words[9] += 1;
    assert_eq!(with(&words), seven);
    // The same where 100 levels stand.
    let (_, _, full) = standing(100);
    assert!(full.clone().with_list(&list).is_ok());
    assert_eq!(full.with_list(&List::from_words(&[5])).unwrap_err().number(), 7);
}

#[test]
fn a_list_in_slices() {
    let (model, _, _) = standing(0);
    let listed = |tables: &Tables, length: usize| {
        let mut words = vec![7; length];
        let ended = slices::list(tables, &mut words);
        assert!(ended.number == 0 || words.iter().all(|&word| word == 7));
        (ended.number, ended.place, words)
    };
    let (number, _, words) = listed(model.tables(), 12);
    assert_eq!((number, &words[..10]), (0, model.list().unwrap().words()));
    assert_eq!(words[10..], [7, 7]);
    assert_eq!(listed(model.tables(), 9).0, 9);
    let mut tables = model.tables().clone();
    tables.transition[3] = 999;
    assert_eq!(listed(&tables, 0).0, 5);
    tables.reward.pop();
    assert_eq!(listed(&tables, 0).0, 3);
}

#[test]
fn new_prices() {
    let (model, start, mut two) = standing(2);
    let dearer = model.with_rewards(&[vec![-100, -110], vec![-1_000, 570]]).unwrap();
    let before = two.clone();
    two.reprice(&dearer).unwrap();
    assert_eq!((two.level(), two.standing().corners()), (2, &[28, 570][..]));
    assert_eq!(two.standing().point(0).map(|point| point.value), Some(18_500));
    assert_eq!((two.informed(1, 0), two.qmdp(0, 0)), (-1_030, 185));
    for (new, old) in two.standing().vectors().zip(before.standing().vectors()) {
        let fallen: Vec<i64> = old.entries.iter().map(|entry| entry - 60).collect();
        assert_eq!((new.action, new.choices, new.mask, new.entries), (old.action, old.choices, old.mask, &fallen[..]));
    }
    // Levels upon it, and prices that change back.
    two.offer(&two.build(&Points::one(&start.weights)).unwrap()).unwrap();
    let mut back = two.clone();
    back.reprice(&model).unwrap();
    assert_eq!((back.model(), back.level()), (&model, 3));
    // A list goes on: T is the same.
    let mut listed = two.clone().with_list(&dearer.list().unwrap()).unwrap();
    listed.reprice(&model).unwrap();
    listed.offer(&listed.build(&Points::default()).unwrap()).unwrap();
    // At level 0 only the model changes.
    let (_, _, mut fresh) = standing(0);
    fresh.reprice(&dearer).unwrap();
    assert_eq!(fresh, Certifier::open(&dearer).unwrap());
    // Another model is refused, and nothing changes.
    let other = Model::from_tables(Tables { discount: 901, ..model.tables().clone() }).unwrap();
    let refused = two.clone().reprice(&other).unwrap_err();
    assert_eq!(refused, Refusal { rule: Rule::Prices, place: Place::Whole });
    assert!(matches!(model.with_rewards(&[vec![0, 0]]), Err(Error::Length(_))));
    assert_eq!(refusal(model.with_rewards(&[vec![0, 100_001], vec![0, 0]])), (3, 0));
}

#[test]
fn new_tables_in_slices() {
    let (model, _, one) = standing(1);
    let moved = |change: &dyn Fn(&mut Tables, &mut slices::Certifier)| {
        let (mut new, mut certifier) = (model.tables().clone(), one.slices().clone());
        change(&mut new, &mut certifier);
        let before = certifier.clone();
        let ended = slices::reprice(model.tables(), &new, &mut certifier);
        assert!(ended.number == 0 || certifier == before);
        (ended.number, ended.place)
    };
    assert_eq!(moved(&|_, _| {}), (0, 0));
    assert_eq!(moved(&|new, certifier| (new.discount, certifier.state[0]) = (1_001, 101)), (7, 0));
    assert_eq!(moved(&|new, _| (new.reward[0], new.transition[3]) = (100_001, 1)), (3, 0));
    assert_eq!(moved(&|new, _| new.reward.truncate(3)), (3, 0));
    assert_eq!(moved(&|new, _| (new.transition[3], new.discount) = (999, 1)), (5, 1));
    assert_eq!(moved(&|new, _| (new.observation[7], new.discount) = (999, 1)), (6, 3));
    assert_eq!(moved(&|new, _| new.discount = 1), (23, 0));
    assert_eq!(moved(&|new, _| new.actions = 1), (23, 0));
    assert_eq!(moved(&|_, certifier| certifier.choices.clear()), (0, 0));
}

/// Each of the two ceilings is the lower one somewhere.
#[test]
fn the_ceilings_apart() {
    let (_, _, two) = standing(2);
    let apart = |weights: &[u32]| {
        let at = two.totals(&Mixture::new(weights)).unwrap();
        assert_eq!(at.upper, at.sawtooth.min(at.informed));
        (at.sawtooth, at.informed, at.speaks())
    };
    assert_eq!(apart(&[1, 0]), (-32, -50, Ceiling::Informed));
    assert_eq!(apart(&[0, 1]), (510, 510, Ceiling::Sawtooth));
    assert_eq!(apart(&[50, 50]), (12_500, 19_500, Ceiling::Sawtooth));
}

/// The rows are stepped from the tables alone: by what is accepted, and by nothing that is refused.
#[test]
fn the_rows_of_the_dough() {
    let rows = |certifier: &Certifier| {
        let cells = [(0, 0), (0, 1), (1, 0), (1, 1)];
        (cells.map(|(a, s)| certifier.informed(a, s)), cells.map(|(a, s)| certifier.qmdp(a, s)))
    };
    assert_eq!(rows(&standing(0).2), ([0; 4], [0; 4]));
    assert_eq!(rows(&standing(1).2), ([-100, -100, -1_000, 600], [-100, -100, -1_000, 600]));
    let (model, _, mut two) = standing(2);
    assert_eq!(rows(&two), ([-50, 440, -1_090, 510], [125, 440, -1_090, 510]));
    let mut loose = Level::new(model.shape());
    loose.add_vector(0, &[0, 0], &[300_000, 300_000]).unwrap();
    loose.corners_mut().fill(300_000);
    assert_eq!(refusal(two.offer(&loose)), (13, 0));
    assert_eq!(rows(&two), rows(&standing(2).2));
    loose.entries_mut(0).fill(-300_000);
    two.offer(&loose).unwrap();
    assert_eq!(rows(&two), rows(&standing(3).2));
    assert!(std::panic::catch_unwind(|| two.informed(2, 0)).is_err());
    assert!(std::panic::catch_unwind(|| two.qmdp(0, 2)).is_err());
}

#[test]
fn the_library_is_of_this_version() {
    assert_eq!(version(), VERSION);
    let header = include_str!("../../../include/biidhaqun.h");
    assert!(header.contains(&format!("#define BIIDHAQUN_VERSION {}\n", VERSION)));
}

#[test]
fn a_broken_level_two() {
    let second = |change: fn(&mut Level)| {
        let (_, start, mut certifier) = standing(1);
        let mut level = certifier.build(&Points::one(&start.weights)).unwrap();
        change(&mut level);
        let before = certifier.clone();
        let answer = certifier.offer(&level);
        assert_eq!(answer.is_err(), certifier == before);
        answer
    };
    assert_eq!(second(|level| level.corners_mut()[0] = -32), Ok(()));
    assert_eq!(refusal(second(|level| level.corners_mut()[0] = -33)), (14, 0));
    assert_eq!(second(|level| *level.value_mut(0) = 12_500), Ok(()));
    assert_eq!(refusal(second(|level| *level.value_mut(0) = 12_499)), (15, 0));
    assert_eq!(refusal(second(|level| *level = Level::new(Shape { states: 2, actions: 2, observations: 2 }))), (9, 0));
    assert_eq!(refusal(second(|level| *level.action_mut(2) = 2)), (10, 2));
    assert_eq!(refusal(second(|level| level.choices_mut(1)[1] = u16::MAX)), (10, 1));
    assert_eq!(refusal(second(|level| level.entries_mut(1)[1] = i64::MIN)), (11, 1));
    assert_eq!(refusal(second(|level| level.weights_mut(0)[0] = u32::MAX)), (12, 0));
    assert_eq!(refusal(second(|level| level.entries_mut(0)[0] += 1)), (13, 0));
}

#[test]
fn files_and_tables() {
    let (model, start, _) = standing(0);
    assert_eq!(start.weights, [50, 50]);
    assert_eq!(model.shape(), Shape { states: 2, actions: 2, observations: 2 });
    let tables = model.tables().clone();
    assert_eq!(tables.transition, [500, 500, 0, 1_000, 1_000, 0, 1_000, 0]);
    assert_eq!(Model::from_tables(tables.clone()), Ok(model.clone()));
    let longer = Tables { transition: [&tables.transition[..], &[7]].concat(), ..tables.clone() };
    assert_eq!(Model::from_tables(longer), Ok(model.clone()));
    let limit = Err(Refusal { rule: Rule::Limit, place: Place::Whole });
    let broken: [fn(&mut Tables); 6] = [
        |tables| tables.transition.truncate(7),
        |tables| tables.observation.clear(),
        |tables| tables.reward.truncate(3),
        |tables| tables.states = usize::MAX,
        |tables| tables.discount = 1_001,
        |tables| tables.reward[0] = i64::MIN,
    ];
    for change in broken {
        let mut tables = tables.clone();
        change(&mut tables);
        assert_eq!(Model::from_tables(tables), limit);
    }
    let mut row = tables;
    row.transition[5] = 1;
    let place = Place::Row { number: 2, action: 1, state: 0 };
    assert_eq!(Model::from_tables(row), Err(Refusal { rule: Rule::TransitionTotal, place }));
    assert_eq!(Model::read(b""), Err(Refusal { rule: Rule::Form, place: Place::Byte(0) }));
    let long = Refusal { rule: Rule::FileLength, place: Place::Whole };
    assert_eq!(Model::read(&[b' '; 32_769]), Err(long));
    let unstated = b"discount: 0.9 values: reward states: 1 actions: 1 observations: 1 start: 1";
    let place = Place::Byte(unstated.len());
    assert_eq!(Model::read(unstated), Err(Refusal { rule: Rule::TransitionTotal, place }));
}

#[test]
fn a_certifier_from_slices() {
    for levels in 0..4 {
        let (model, start, certifier) = standing(levels);
        let mut again = Certifier::from_slices(&model, certifier.slices().clone()).unwrap();
        assert_eq!(again, certifier);
        assert_eq!(again.level(), levels);
        let built = again.build(&Points::one(&start.weights)).unwrap();
        assert_eq!(built.vectors().count(), 3);
        assert_eq!(again.offer(&built), Ok(()));
        assert_eq!(again.standing(), built);
        let mut shorter = certifier.slices().clone();
        shorter.corners.truncate(1);
        let seven = Err(Refusal { rule: Rule::Certifier, place: Place::Whole });
        assert_eq!(Certifier::from_slices(&model, shorter), seven);
        let broken: [fn(&mut slices::Certifier); 5] = [
            |slices| slices.masks.clear(),
            |slices| slices.informed.truncate(3),
            |slices| slices.qmdp.clear(),
            |slices| slices.informed[3] = 100_000 * slices.state[0] as i64 + 1,
            |slices| slices.qmdp[0] = -100_000 * slices.state[0] as i64 - 1,
        ];
        for change in broken {
            let mut slices = certifier.slices().clone();
            change(&mut slices);
            assert_eq!(Certifier::from_slices(&model, slices), seven);
        }
        assert_eq!(Certifier::from_slices(&model, slices::Certifier::default()), seven);
    }
}

/// Choices are kept and read by no call, so that slices may hold any; they are shown as they stand, and no longer slices are
/// wanted than the standing level fills.
#[test]
fn what_stands_in_slices_of_any_content_is_shown() {
    let (model, start, certifier) = standing(2);
    let mut slices = certifier.slices().clone();
    slices.choices[..6].copy_from_slice(&[9, 65_535, 0, 1, 2, 40]);
    slices.actions.truncate(3);
    slices.weights[2..].fill(u32::MAX);
    let mut again = Certifier::from_slices(&model, slices).unwrap();
    let stands = again.standing();
    assert_eq!(
        stands.vectors().map(|vector| vector.choices.to_vec()).collect::<Vec<_>>(),
        [[9, 65_535], [0, 1], [2, 40]]
    );
    assert_eq!(stands.points().count(), 1);
    assert_eq!(again.totals(&start), certifier.totals(&start));
    let level = again.build(&Points { weights: vec![start.weights.clone(); 16] }).unwrap();
    assert_eq!(again.offer(&level), Ok(()));
}

/// A level of these vectors, each an action, a mask and entries, that go on with vector `next` and have high corners.
fn masked(certifier: &Certifier, next: u16, vectors: &[(u8, u64, [i64; 2])]) -> Level {
    let mut level = Level::new(certifier.model().shape());
    for (action, mask, entries) in vectors {
        level.add_masked_vector(*action, &[next, next], *mask, entries).unwrap();
    }
    level.corners_mut().fill(100_000 * (certifier.level() as i64 + 1));
    level
}

/// Waiting where the dough is ready, and baking anywhere: what is stored, what counts, what may follow.
#[test]
fn vectors_that_cover_part_of_the_states() {
    let (_, start, mut certifier) = standing(0);
    assert_eq!(certifier.standing().vector(0).map(|vector| vector.mask), Some(3));
    assert!(certifier.build(&Points::default()).unwrap().vectors().all(|vector| vector.covers_all()));
    let level = masked(&certifier, 0, &[(0, !1, [i64::MIN, -100]), (1, 3, [-1_000, -500])]);
    assert_eq!(level.vector(0).map(|vector| (vector.covers_all(), vector.covers(1))), Some((false, true)));
    certifier.offer(&level).unwrap();
    let stands = certifier.standing();
    assert_eq!(stands, masked(&standing(0).2, 0, &[(0, 2, [0, -100]), (1, 3, [-1_000, -500])]));
    let at = |certifier: &Certifier, weights: &[u32]| certifier.totals(&Mixture::new(weights)).map(|at| at.lower);
    assert_eq!((at(&certifier, &[0, 2]), at(&certifier, &[1, 1])), (Ok(-200), Ok(-1_500)));
    for vector in stands.vectors() {
        assert!(vector.counts_at(&Mixture::new(&[0, 2])));
        assert_eq!(vector.counts_at(&start), vector.covers_all());
    }
    // Ready dough stays ready while waiting, and a baked one is a new dough.
    let offered = |next: u16, vector: (u8, u64, [i64; 2])| {
        let level = masked(&certifier, next, &[vector]);
        certifier.clone().offer(&level).map_err(|error| refusal::<()>(Err(error)))
    };
    assert_eq!(offered(0, (0, 2, [0, -190])), Ok(()));
    assert_eq!(offered(0, (0, 2, [0, -189])), Err((13, 0)));
    assert_eq!(offered(0, (0, 1, [0, -200])), Err((21, 0)));
    assert_eq!(offered(0, (1, 2, [0, -2_000])), Err((21, 0)));
    assert_eq!(offered(1, (1, 2, [0, -2_000])), Ok(()));
    assert_eq!(offered(0, (1, 0, [i64::MAX, i64::MAX])), Ok(()));
    assert!(certifier.build(&Points::default()).unwrap().vectors().all(|vector| vector.choices == [1, 1]));
    let adopted = certifier.adopt(b"1 0 0", b"0 1 1 0", &Points::default());
    assert_eq!(adopted, Err(Error::Refused(Refusal { rule: Rule::Covered, place: Place::Vector(0) })));
    // Where no vector counts, there are no totals; where none covers all, nothing is built.
    let (_, _, mut narrow) = standing(0);
    narrow.offer(&masked(&narrow, 0, &[(0, 2, [0, -100])])).unwrap();
    assert_eq!(at(&narrow, &[0, 1]), Ok(-100));
    assert_eq!(refusal(at(&narrow, &[1, 1])), (22, 0));
    assert_eq!(refusal(narrow.build(&Points::default())), (22, 0));
    let mixtures = [[0, 1], [1, 0], [0, 0]].map(|weights| Mixture::new(&weights));
    let answers = narrow.totals_at(&mixtures).unwrap();
    let numbers: Vec<_> = answers.iter().map(|answer| answer.as_ref().err().map(Refusal::number)).collect();
    assert_eq!(numbers, [None, Some(22), Some(17)]);
}

#[test]
fn a_hundred_levels() {
    let (_, start, mut certifier) = standing(100);
    assert_eq!(certifier.level(), 100);
    assert_eq!(refusal(certifier.build(&Points::default())), (8, 0));
    let level = certifier.standing();
    assert_eq!(refusal(certifier.offer(&level)), (8, 0));
    assert!(certifier.totals(&start).is_ok());
}

/// Levels of one certifier, accepted and refused ones, and certifiers of several heights: a list leaves what the offers one
/// after the other leave.
#[test]
fn a_list_of_levels_is_replayed() {
    let (model, start, mut climbed) = standing(0);
    let mut levels = vec![Level::new(model.shape())];
    for points in [Points::one(&start.weights), Points { weights: vec![vec![1, 2]; 5] }, Points::default()] {
        let built = climbed.build(&points).unwrap();
        let mut high = built.clone();
        high.entries_mut(1)[0] += 1;
        let mut large = built.clone();
        for _ in 0..slices::VECTORS {
            large.add_vector(0, &[0, 0], &[-100, -100]).unwrap();
        }
        let mut pointed = built.clone();
        for _ in 0..=slices::POINTS {
            pointed.add_point(&[1, 1], 600).unwrap();
        }
        climbed.offer(&built).unwrap();
        levels.extend([high, large, built, pointed]);
    }
    for levels in [&levels[..], &levels[1..], &levels[3..4], &levels[..1], &[]] {
        for height in [0, 1, 2, 99, 100] {
            let (_, _, mut at_once) = standing(height);
            let mut in_turn = at_once.clone();
            let accepted = levels.iter().filter(|level| in_turn.offer(level).is_ok()).count();
            assert_eq!(at_once.replay(levels), Ok(accepted));
            assert_eq!(at_once.slices(), in_turn.slices());
            assert_eq!(at_once.level(), height + accepted);
        }
    }
    let (_, _, mut again) = standing(0);
    assert_eq!(again.replay(&levels), Ok(3));
    assert_eq!(again, climbed);
    let wide = Level::new(Shape { states: 3, ..model.shape() });
    levels.insert(0, wide);
    let error = again.replay(&levels).unwrap_err();
    assert_eq!(error.to_string(), "the states of level 0 are 3, and the model wants 2");
    assert_eq!(again, climbed);
}

/// A level of so many vectors for the dough's certifier after `below` vectors, of which each goes on with another.
fn wide(certifier: &Certifier, vectors: usize, below: usize) -> Result<Level, Error> {
    let alpha = "1 999999 999999\n".repeat(vectors);
    let node = |v: usize| match below {
        0 => format!("{} 1 - -\n", v),
        below => format!("{} 1 {} {}\n", v, (v + 255) % below, v % below),
    };
    let graph: String = (0..vectors).map(node).collect();
    certifier.adopt(alpha.as_bytes(), graph.as_bytes(), &Points::one(&[1, 1]))
}

#[test]
fn a_thousand_vectors() {
    let (model, start, mut certifier) = standing(0);
    let mut first = wide(&certifier, 1_000, 0).unwrap();
    // The last is the largest, and alone has action 0.
    for v in 0..1_000 {
        first.entries_mut(v).fill(-1_000 - v as i64);
    }
    *first.action_mut(999) = 0;
    first.entries_mut(999).fill(-100);
    certifier.offer(&first).unwrap();
    assert_eq!(certifier.standing(), first);
    let at = certifier.totals(&start).unwrap();
    assert_eq!((at.lower, at.action), (-10_000, 0));
    let built = certifier.build(&Points::one(&start.weights)).unwrap();
    assert!(built.vectors().all(|vector| vector.choices == [999, 999]));
    let second = wide(&certifier, 1_000, 1_000).unwrap();
    assert_eq!(second.vector(1).unwrap().choices, [256, 1]);
    certifier.offer(&second).unwrap();
    // One more is refused.
    let mut more = wide(&certifier, 1_000, 1_000).unwrap();
    more.add_vector(1, &[999, 999], &[-300_000, -300_000]).unwrap();
    assert_eq!(refusal(certifier.offer(&more)), (9, 0));
    let mut again = Certifier::open(&model).unwrap();
    assert_eq!(again.replay(&[first, more, second]), Ok(2));
    assert_eq!(again, certifier);
    // Chosen vectors up to 999 exist.
    let mut level = certifier.build(&Points::default()).unwrap();
    level.entries_mut(0).fill(-300_000);
    level.choices_mut(0).fill(1_000);
    assert_eq!(refusal(certifier.offer(&level)), (10, 0));
    level.choices_mut(0).fill(999);
    assert_eq!(certifier.offer(&level), Ok(()));
}

/// A solver's files have up to 4 MiB each, and a model file has less.
#[test]
fn long_files() {
    let (_, _, certifier) = standing(0);
    let padded = |bytes: &[u8], length: usize| {
        let mut long = bytes.to_vec();
        long.resize(length, b'\n');
        long
    };
    let (alpha, graph) = (padded(FIRST.0, slices::SOLVER_BYTES), padded(FIRST.1, slices::SOLVER_BYTES));
    let level = certifier.adopt(&alpha, &graph, &Points::default()).unwrap();
    assert_eq!(level, certifier.adopt(FIRST.0, FIRST.1, &Points::default()).unwrap());
    assert!(Model::read(&padded(DOUGH, slices::FILE_BYTES)).is_ok());
    let error = Model::read(&padded(DOUGH, slices::FILE_BYTES + 1)).unwrap_err();
    assert_eq!(error.number(), 1);
}

/// What a certifier takes, in bytes: the room of every level.
#[test]
fn the_room_of_a_certifier() {
    fn bytes<Cell>(cells: &[Cell]) -> usize {
        std::mem::size_of_val(cells)
    }
    let room = |states, actions, observations| {
        let slices = slices::Certifier::roomy(states, actions, observations);
        bytes(&slices.actions)
            + bytes(&slices.choices)
            + bytes(&slices.masks)
            + bytes(&slices.entries)
            + bytes(&slices.corners)
            + bytes(&slices.weights)
            + bytes(&slices.values)
            + bytes(&slices.informed)
            + bytes(&slices.qmdp)
    };
    assert_eq!(room(2, 3, 2), 29_624);
    assert_eq!(room(64, 8, 8), 554_152);
}

/// What is asked of the slices that a file is read into: the tables' once the counts are read, the start numbers' at the end.
#[test]
fn the_room_of_a_file() {
    let read = |file: &[u8], [t, o, r, start]: [usize; 4]| {
        let (mut transition, mut observation, mut reward, mut numbers) =
            (vec![7; t], vec![7; o], vec![7; r], vec![7; start]);
        let ended = slices::read(file, &mut transition, &mut observation, &mut reward, &mut numbers);
        let unchanged =
            transition == vec![7; t] && observation == vec![7; o] && reward == vec![7; r] && numbers == vec![7; start];
        assert_eq!(unchanged, ended.number != 0);
        (ended.number, ended.place)
    };
    assert_eq!(read(DOUGH, [8, 8, 4, 2]), (0, 0));
    for short in [[7, 8, 4, 2], [8, 7, 4, 2], [8, 8, 3, 2], [0, 0, 0, 0]] {
        assert_eq!(read(DOUGH, short), (3, 0));
    }
    assert_eq!(read(DOUGH, [8, 8, 4, 1]), (100, 2));
    let text = String::from_utf8(DOUGH.to_vec()).unwrap();
    let changed = |from: &str, to: &str| text.replacen(from, to, 1).into_bytes();
    // Words before the counts come first, the start line and what follows after; 100 after all else.
    assert_eq!(read(&changed("reward", "cost"), [0, 0, 0, 0]).0, 2);
    assert_eq!(read(&changed("observations: 2", "observations: 9"), [0, 0, 0, 0]).0, 3);
    assert_ne!(read(&changed("observations: 2", "observations: 9"), [0, 0, 0, 0]).1, 0);
    assert_eq!(read(&changed("start: 0.5", "start: x"), [7, 8, 4, 2]), (3, 0));
    assert_eq!(read(&changed("T: 0 : 1 0 1", "T: 0 : 1 0 0"), [8, 8, 3, 2]), (3, 0));
    assert_eq!(read(&changed("T: 0 : 1 0 1", "T: 0 : 1 0 0"), [8, 8, 4, 1]), (5, 235));
}

/// The file of a model with so many states, each of which stays where it is and earns a tick more than the one before.
fn layers(states: usize) -> Vec<u8> {
    let mut text = format!("discount: 1 values: reward states: {} actions: 1 observations: 1 start: 1", states);
    text.push_str(&" 0".repeat(states - 1));
    text.push_str(" O: 0 : * 1\n");
    for s in 0..states {
        text.push_str(&format!("T: 0 : {0} : {0} 1 R: 0 : {0} : * : * {1}.{2:02}\n", s, s / 100, s % 100));
    }
    text.into_bytes()
}

#[test]
fn sixty_four_states() {
    let (model, _) = Model::read(&layers(64)).unwrap();
    assert_eq!((model.shape().states, model.transition(63, 0, 63), model.reward(63, 0)), (64, 1_000, 63));
    assert_eq!(refusal(Model::read(&layers(65)).map_err(Error::from)), (3, 35));
    let mut certifier = Certifier::open(&model).unwrap();
    let points: Vec<Vec<u32>> = (0..16).map(|j| (0..64).map(|s| u32::from(s == j || s == 63)).collect()).collect();
    let mut last = Mixture::new(&[0; 64]);
    last.weights[63] = 1;
    for t in 1..=2 {
        let level = certifier.build(&Points { weights: points.clone() }).unwrap();
        assert_eq!((level.vectors().count(), level.points().count()), (80, 16));
        certifier.offer(&level).unwrap();
        let at = certifier.totals(&last).unwrap();
        assert_eq!((at.lower, at.upper), (63 * t, 63 * t));
    }
    // A vector that covers the last state alone counts there, and nowhere else.
    let mut narrow = Certifier::open(&model).unwrap();
    let mut level = narrow.build(&Points::default()).unwrap();
    (0..64).for_each(|v| *level.mask_mut(v) = 1 << 63);
    narrow.offer(&level).unwrap();
    assert_eq!(narrow.totals(&last).unwrap().lower, 63);
    assert_eq!(refusal(narrow.totals(&Mixture::new(&[1; 64]))), (22, 0));
}

/// What is asked of the slices of a list.
#[test]
fn a_list_in_blocks() {
    let (model, start, fresh) = standing(0);
    let mut climbed = fresh.clone();
    let mut levels = Vec::new();
    for _ in 0..2 {
        let level = climbed.build(&Points::one(&start.weights)).unwrap();
        climbed.offer(&level).unwrap();
        levels.push(level);
    }
    let packed = || slices::Offers::packed(levels.iter().map(Level::slices), 2, 2);
    let ended = |certifier: &slices::Certifier, offers: &slices::Offers| {
        let mut left = certifier.clone();
        let ended = slices::replay(model.tables(), &mut left, offers);
        assert!(ended.accepted > 0 || left == *certifier);
        (ended.number, ended.place, ended.accepted)
    };
    assert_eq!(ended(fresh.slices(), &packed()), (0, 0, 2));
    let larger = slices::Offers { block_vectors: 1_000, block_points: 32, ..slices::Offers::default() };
    let mut roomy = larger.clone();
    levels.iter().for_each(|level| roomy.push(level.slices(), 2, 2));
    assert_eq!(ended(fresh.slices(), &roomy), (0, 0, 2));
    assert_eq!(ended(fresh.slices(), &slices::Offers { count: 1, ..roomy }), (0, 0, 1));
    assert_eq!(ended(fresh.slices(), &larger), (0, 0, 0));
    let short: [fn(&mut slices::Offers); 13] = [
        |offers| offers.vectors.truncate(1),
        |offers| offers.points.truncate(1),
        |offers| offers.actions.truncate(5),
        |offers| offers.choices.truncate(11),
        |offers| offers.masks.truncate(5),
        |offers| offers.entries.truncate(11),
        |offers| offers.corners.truncate(3),
        |offers| offers.weights.truncate(3),
        |offers| offers.values.truncate(1),
        |offers| offers.count = 3,
        |offers| offers.count = usize::MAX,
        |offers| (offers.count, offers.block_vectors) = (0, 1_001),
        |offers| (offers.count, offers.block_points) = (0, 33),
    ];
    for change in short {
        let mut offers = packed();
        change(&mut offers);
        assert_eq!(ended(fresh.slices(), &offers), (9, 0, 0), "{:?}", offers);
    }
    // 7 comes before 9, and an offer of more vectors than its block has room for is refused alone.
    assert_eq!(ended(&slices::Certifier::default(), &larger), (7, 0, 0));
    let mut offers = packed();
    offers.vectors[0] = 4;
    assert_eq!(ended(fresh.slices(), &offers).0, 0);
    assert_eq!(ended(fresh.slices(), &slices::Offers { count: 1, ..offers }), (0, 0, 0));
}

#[test]
fn a_fresh_certifier_has_no_totals_and_builds_at_sixteen_points() {
    let (_, start, certifier) = standing(0);
    assert_eq!(refusal(certifier.totals(&start)), (16, 0));
    let many = |count| Points { weights: vec![start.weights.clone(); count] };
    assert_eq!(certifier.build(&many(16)).unwrap().points().count(), 16);
    assert_eq!(refusal(certifier.build(&many(17))), (9, 0));
}

/// A number that names no part is none, however large; a level for more states than a model may have is made and shown.
#[test]
fn numbers_of_no_part() {
    let (_, _, certifier) = standing(1);
    let level = certifier.standing();
    let mut graph = Graph::new(2);
    graph.add_node(0, &[0, 0]).unwrap();
    for number in [level.vectors().count(), usize::MAX / 2, usize::MAX] {
        assert_eq!((level.vector(number), level.point(number), graph.node(number)), (None, None, None));
    }
    assert_eq!(
        [0, 1, 63, 64, 65, usize::MAX].map(slices::full_mask),
        [0, 1, u64::MAX >> 1, u64::MAX, u64::MAX, u64::MAX]
    );
    let mut wide = Level::new(Shape { states: 65, actions: 1, observations: 1 });
    wide.add_vector(0, &[0], &[0; 65]).unwrap();
    let vector = wide.vector(0).unwrap();
    assert!(vector.covers(63) && !vector.covers(64) && !vector.covers(usize::MAX) && !vector.covers_all());
    assert!(wide.to_string().starts_with("vector 0: action 0, choices [0], covers [0, 1, "));
    assert!(matches!(certifier.clone().offer(&wide), Err(Error::Length(_))));
}

/// A solver's files at the first level and at the second, of which the last entry is too high by a tenth.
const FIRST: (&[u8], &[u8]) = (b"0\n-1.000 -1.000 \n\n1\n-10.000 6.000 \n\n", b"0 0  - - \n1 1  - - \n");
const SECOND: (&[u8], &[u8]) = (b"0\n-0.505 2.610 \n\n", b"0 0  0 1 \n");

#[test]
fn levels_from_a_solvers_files() {
    let (_, start, mut certifier) = standing(0);
    let points = Points::one(&start.weights);
    let first = certifier.adopt(FIRST.0, FIRST.1, &points).unwrap();
    assert_eq!(
        first.vectors().map(|vector| vector.entries.to_vec()).collect::<Vec<_>>(),
        [[-100, -100], [-1_000, 600]]
    );
    assert_eq!(first.corners(), certifier.build(&points).unwrap().corners());
    certifier.offer(&first).unwrap();
    let second = certifier.adopt(SECOND.0, SECOND.1, &Points::default()).unwrap();
    let vector = second.vector(0).unwrap();
    assert_eq!((vector.action, vector.choices, vector.entries), (0, &[0, 1][..], &[-51, 251][..]));
    assert_eq!(second.points().count(), 0);
    certifier.offer(&second).unwrap();
    assert_eq!(certifier.level(), 2);
}

#[test]
fn a_solvers_files_are_refused() {
    let (_, start, fresh) = standing(0);
    let (_, _, raised) = standing(1);
    let made = |certifier: &Certifier, alpha: &[u8], graph: &[u8]| {
        refusal(certifier.adopt(alpha, graph, &Points::one(&start.weights)))
    };
    let long = vec![b' '; slices::SOLVER_BYTES + 1];
    assert_eq!(made(&fresh, &long, FIRST.1), (1, 0));
    assert_eq!(made(&fresh, FIRST.0, &long), (1, 0));
    assert_eq!(made(&fresh, b"0 -1.0 x", FIRST.1), (19, 7));
    assert_eq!(made(&fresh, FIRST.0, b"0 0 - - 2 1 - -"), (19, 8));
    assert_eq!(made(&fresh, FIRST.0, b"0 0 - -"), (20, 0));
    assert_eq!(made(&standing(100).2, FIRST.0, FIRST.1), (8, 0));
    assert_eq!(made(&fresh, b"", b""), (9, 0));
    assert_eq!(made(&raised, FIRST.0, FIRST.1), (10, 0));
    assert_eq!(made(&fresh, b"0 -1 -1000.001", b"0 0 - -"), (11, 0));
    let none = fresh.adopt(FIRST.0, FIRST.1, &Points::one(&[0, 0]));
    assert_eq!(none, Err(Error::Refused(Refusal { rule: Rule::PointTotal, place: Place::Point(0) })));
    let range = fresh.adopt(b"0 -1 -1000.001", b"0 0 - -", &Points::default());
    assert_eq!(range, Err(Error::Refused(Refusal { rule: Rule::Range, place: Place::Vector(0) })));
}

#[test]
fn the_weights_of_a_point_total_1_to_100() {
    let (_, _, mut certifier) = standing(0);
    for weights in [[0, 1], [1, 1], [1, 2], [50, 50]] {
        let level = certifier.build(&Points::one(&weights)).unwrap();
        assert_eq!(certifier.clone().offer(&level), Ok(()));
    }
    for weights in [[0, 0], [50, 51], [u32::MAX, 2], [u32::MAX, u32::MAX]] {
        assert_eq!(refusal(certifier.build(&Points::one(&weights))), (12, 0));
    }
    // The value of a point lies within 100,000 ticks a level times that total; where 12 refuses the total, 11 passes over.
    let built = certifier.build(&Points::one(&[1, 2])).unwrap();
    let mut with = |weights: [u32; 2], value: i64| {
        let mut level = built.clone();
        level.weights_mut(0).copy_from_slice(&weights);
        *level.value_mut(0) = value;
        certifier.offer(&level).map_err(|error| refusal::<()>(Err(error)))
    };
    assert_eq!(with([1, 2], 300_001), Err((11, 0)));
    assert_eq!(with([50, 51], 10_100_001), Err((12, 0)));
    assert_eq!(with([0, 0], 1), Err((12, 0)));
    assert_eq!(with([1, 2], 300_000), Ok(()));
}

#[test]
fn a_worth_is_rounded_at_each_step() {
    let (model, _, _) = standing(0);
    let graph = |last: [u16; 2]| {
        let mut graph = Graph::new(2);
        for (action, next) in [(0, [1, 2]), (0, [1, 1]), (1, last)] {
            graph.add_node(action, &next).unwrap();
        }
        graph
    };
    let plan = graph([2, 2]);
    assert_eq!(plan.node(0), Some((0, &[1, 2][..])));
    assert_eq!(model.worth(&plan, 0, 0, 0), Ok(0));
    assert_eq!(model.worth(&plan, 0, 0, 1), Ok(-100));
    assert_eq!(model.worth(&plan, 0, 0, 2), Ok(-51));
    for (node, state, steps) in [(3, 0, 1), (0, 2, 1), (0, 0, 5), (usize::MAX, 0, 0)] {
        assert_eq!(refusal(model.worth(&plan, node, state, steps)), (18, 0));
    }
    assert_eq!(refusal(model.worth(&graph([2, 3]), 0, 0, 0)), (18, 2));
    assert_eq!(refusal(model.worth(&Graph::new(2), 0, 0, 0)), (18, 0));
    assert!(matches!(model.worth(&Graph::new(3), 0, 0, 0), Err(Error::Length(_))));
}

#[test]
fn wrong_lengths_are_told() {
    let (model, _, mut certifier) = standing(1);
    let mut level = Level::new(model.shape());
    let error = level.add_vector(0, &[0, 0], &[0]).unwrap_err();
    assert_eq!(error.to_string(), "the entries of vector 0 are 1, and the model wants 2");
    assert!(level.add_vector(0, &[0], &[0, 0]).is_err());
    assert!(level.add_point(&[1], 0).is_err());
    assert_eq!((level.vectors().count(), level.points().count()), (0, 0));
    let wide = Level::new(Shape { states: 3, ..model.shape() });
    assert!(matches!(certifier.offer(&wide), Err(Error::Length(_))));
    assert!(matches!(certifier.totals(&Mixture::new(&[1])), Err(Error::Length(_))));
    assert!(matches!(certifier.build(&Points::one(&[100])), Err(Error::Length(_))));
}

#[test]
fn every_refusal_has_a_rule_and_a_sentence() {
    for number in (1..=27).chain([100]) {
        let rule = Rule::of(number).unwrap();
        assert_eq!(rule.number(), number);
        let text = Refusal { rule, place: Place::Byte(3) }.to_string();
        assert!(text.starts_with(&format!("refused {} at 3: ", number)));
    }
    assert_eq!((Rule::of(0), Rule::of(28), Rule::of(101)), (None, None, None));
}

/// The C header says the same numbers.
#[test]
fn the_header_has_the_same_numbers() {
    let header = include_str!("../../../include/biidhaqun.h");
    let says = |name: &str, number: u64| {
        let line = format!("BIIDHAQUN_{} = {}", name, number);
        let ends = |rest: &str| !rest.starts_with(|next: char| next.is_ascii_digit());
        assert_eq!(header.split(&line).skip(1).filter(|rest| ends(rest)).count(), 1, "{}", line);
    };
    for rule in Rule::ALL {
        // VectorBackup, VECTOR_BACKUP
        let mut name = String::new();
        for letter in format!("{:?}", rule).chars() {
            if letter.is_uppercase() && !name.is_empty() {
                name.push('_');
            }
            name.extend(letter.to_uppercase());
        }
        says(&name, rule.number());
        assert_eq!(header.matches(&format!("case BIIDHAQUN_{}: return", name)).count(), 1, "{}", name);
    }
    let limits = [
        ("STATES", slices::STATES),
        ("ACTIONS", slices::ACTIONS),
        ("OBSERVATIONS", slices::OBSERVATIONS),
        ("VECTORS", slices::VECTORS),
        ("POINTS", slices::POINTS),
        ("BUILT_POINTS", slices::BUILT_POINTS),
        ("NODES", slices::NODES),
        ("STEPS", slices::STEPS),
        ("ACCEPTED", slices::LEVELS),
        ("FILE_BYTES", slices::FILE_BYTES),
        ("SOLVER_BYTES", slices::SOLVER_BYTES),
        ("LIST_WORDS", slices::LIST_WORDS),
        ("WRITTEN_STATES", slices::WRITTEN_STATES),
    ];
    for (name, limit) in limits {
        says(name, limit as u64);
    }
}

#[test]
fn a_model_from_rows() {
    let (model, _, _) = standing(0);
    let action = |action: usize| Action {
        transition: (0..2).map(|s| (0..2).map(|to| model.transition(s, action, to) as u16).collect()).collect(),
        observation: (0..2).map(|s| (0..2).map(|o| model.observation(action, s, o) as u16).collect()).collect(),
        reward: (0..2).map(|s| model.reward(s, action)).collect(),
    };
    assert_eq!(Model::new(900, &[action(0), action(1)]), Ok(model.clone()));
    let mut ragged = action(1);
    ragged.transition[1].pop();
    assert!(matches!(Model::new(900, &[action(0), ragged]), Err(Error::Length(_))));
    assert_eq!(refusal(Model::new(900, &[])), (3, 0));
    assert_eq!(refusal(Model::new(1_001, &[action(0)])), (3, 0));
}

#[test]
fn the_parts_of_a_model() {
    let (model, _, _) = standing(0);
    assert_eq!(model.discount(), 900);
    assert_eq!((model.transition(0, 0, 1), model.transition(1, 0, 1), model.transition(1, 1, 0)), (500, 1_000, 1_000));
    assert_eq!((model.observation(0, 0, 0), model.observation(0, 1, 1), model.observation(1, 1, 1)), (800, 700, 500));
    assert_eq!((model.reward(1, 0), model.reward(0, 1), model.reward(1, 1)), (-100, -1_000, 600));
    for (state, action, reached) in [(2, 0, 0), (0, 2, 0), (0, 0, 2)] {
        assert!(std::panic::catch_unwind(|| model.transition(state, action, reached)).is_err());
    }
}

#[test]
fn units_are_rounded_outwards() {
    let bracket = |lower, upper, weights: &[u32]| {
        let bounds = Bounds { lower, upper, gap: 0, action: 0 };
        let bracket = bounds.bracket(&Mixture::new(weights));
        (bracket.floor.ten_thousandths(), bracket.ceiling.ten_thousandths())
    };
    assert_eq!(bracket(13_350, 18_575, &[50, 50]), (13_350, 18_575));
    assert_eq!(bracket(100, 100, &[1, 2]), (3_333, 3_334));
    assert_eq!(bracket(-100, -100, &[1, 2]), (-3_334, -3_333));
    let totals = Totals { lower: -5, upper: 5, gap: 10, action: 0, sawtooth: 7, informed: 5 };
    let one = Mixture::new(&[1]);
    assert_eq!(totals.bracket(&one).floor.to_string(), "-0.0500");
    assert_eq!(totals.ceiling(Ceiling::Sawtooth, &one).to_string(), "0.0700");
    assert_eq!(totals.ceiling(totals.speaks(), &one), totals.bracket(&one).ceiling);
    assert_eq!(bracket(i64::MIN, i64::MAX, &[1]), (i64::MIN, i64::MAX));
}

/// Rewards that depend on what follows: what is written, what is left behind it, and what is refused.
#[test]
fn conversions() {
    let file = include_bytes!("../../../examples/outcomes/glazing.pomdp");
    let written = include_bytes!("../../../examples/outcomes/glazing.written");
    assert_eq!(convert(file).unwrap(), written);
    let (model, start) = Model::read(written).unwrap();
    assert_eq!((model.reward(0, 0), model.reward(1, 0), start.weights), (-50, -80, vec![70, 30]));
    // A model file is a file with outcomes, too.
    let (dough, _, _) = standing(0);
    assert_eq!(Model::read(&convert(DOUGH).unwrap()).unwrap().0, dough);
    let mut output = vec![7; slices::FILE_BYTES + 1];
    let ended = slices::convert(file, &mut output);
    assert_eq!((ended.number, ended.place, ended.length), (0, 0, written.len()));
    assert!(output[written.len()..].iter().all(|&byte| byte == 7));
    let text = String::from_utf8(file.to_vec()).unwrap();
    let refused = |from: &str, to: &str, length: usize| {
        let mut output = vec![7; length];
        let ended = slices::convert(text.replacen(from, to, 1).as_bytes(), &mut output);
        assert!(ended.number > 0 && ended.length == 0 && output.iter().all(|&byte| byte == 7));
        (ended.number, ended.place)
    };
    assert_eq!(refused("values", "value", slices::FILE_BYTES - 1), (27, 0));
    assert_eq!(refused("T: 0 : 0 1 0", "T: 0 : 0 1 1", slices::FILE_BYTES), (5, text.len()));
    assert_eq!(refused("R: 1 : * : 1 : 0 3", "R: 1 : * : 1 : 0 3.01", slices::FILE_BYTES), (26, 2));
    let refusal = convert(text.replacen("-0.5", "-0.5 R: 0 : 1 : 0 : 0 0.01", 1).as_bytes());
    assert!(refusal.is_ok());
    let refusal = convert(&[text.as_bytes(), b"R: 0 : 1 : 0 : 0 0.01"].concat()).unwrap_err();
    assert_eq!(refusal, Refusal { rule: Rule::ExpectedReward, place: Place::Reward(1) });
    assert_eq!(convert(&layers(17)).unwrap_err(), Refusal { rule: Rule::Wide, place: Place::Whole });
    assert!(convert(&layers(16)).is_ok());
}
