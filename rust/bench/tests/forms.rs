//! Both forms in whole numbers against the reference, on slices of any content and length and on damaged files; the floating
//! form on valid models.

use bench::inputs::{self, Counts, Standing};
use bench::limits::FILE_BYTES;
use bench::plain::PLAIN;
use bench::tuned::TUNED;
use bench::{convert, floating, floating_file};
use biidhaqun::slices::{Refusal, Tables};
use compare::copied::BY_THE_DOCUMENT;
use compare::gen;
use compare::lent::{self, Call, Library};
use compare::rng::Rng;
use compare::through::{self, Through};
use compare::{adopting, bracket, calls, converting, files, many, replaying, single};

const FORMS: [(&str, &dyn Library); 2] = [("plain", &PLAIN), ("tuned", &TUNED)];

fn agree(name: &str, call: &Call) {
    for (form, by) in FORMS {
        assert_eq!(call.difference(&BY_THE_DOCUMENT, by), None, "{}, {}", form, name);
    }
}

#[test]
fn single_calls_answer_as_the_reference() {
    for number in 0..2_000 {
        agree(&format!("slices:{}", number), &single::random(&mut Rng::for_case(11, "slices", number)));
    }
    for number in 0..60 {
        for (call, _) in single::lengths(&mut Rng::for_case(11, "lengths", number), number) {
            agree(&format!("lengths:{}", number), &call);
        }
    }
}

#[test]
fn calls_on_storage_answer_as_the_reference() {
    for (suite, count) in [("calls", 400), ("ends", 120)] {
        for number in 0..count {
            let mut rng = Rng::for_case(11, suite, number);
            let case =
                if suite == "calls" { calls::random(&mut rng, number) } else { calls::at_ends(&mut rng, number) };
            for (form, by) in FORMS {
                let found = through::difference(&case, &BY_THE_DOCUMENT, by, &mut rng.clone());
                assert_eq!(found, None, "{}, {}:{}", form, suite, number);
            }
        }
    }
}

#[test]
fn totals_bracket_all_plans() {
    for number in 0..60 {
        let list = bracket::random(&mut Rng::for_case(11, "plans", number));
        for (_, by) in FORMS {
            assert!(bracket::check(&list, &Through(by)).is_ok());
        }
    }
}

#[test]
fn files_read_as_by_the_reference() {
    let random = (0..2_000).map(|number| files::random(&mut Rng::for_case(11, "random", number)));
    for case in files::fixed_to_read().into_iter().chain(random) {
        agree(&case.about, &single::reading(&case.file));
    }
}

#[test]
fn files_are_converted_as_by_the_reference() {
    let cases = files::fixed_outcomes();
    for number in 0..cases.len() {
        agree(&cases[number].about, &converting::fixed(&cases, number).unwrap());
    }
    for number in 0..1_000 {
        agree(&format!("convert:{}", number), &converting::random(&mut Rng::for_case(11, "convert", number)));
    }
}

/// The file that conversions are measured on is converted by all forms, to the same rewards.
#[test]
fn the_floating_form_converts() {
    let counts = Counts { states: 16, actions: 8, observations: 8 };
    let file = inputs::outcome_file(&mut Rng::for_case(1, "bench", 0), counts, FILE_BYTES).into_bytes();
    assert!(file.len() > FILE_BYTES - 100);
    let mut output = vec![0; FILE_BYTES];
    let ended = TUNED.convert(&file, &mut output);
    assert_eq!(ended.number, 0);
    let (exact, _) = floating_file::read(&output[..ended.length]).unwrap();
    let (float, _) = floating_file::read(floating_file::convert(&file).unwrap().as_bytes()).unwrap();
    assert!(exact.rewards.iter().any(|&reward| reward != 0.0));
    assert!(exact.rewards.iter().zip(&float.rewards).all(|(exact, float)| (exact - float).abs() < 1.5));
}

#[test]
fn a_solvers_files_are_adopted_as_by_the_reference() {
    for (number, case) in adopting::fixed().iter().enumerate() {
        agree(&case.about, &case.call(&mut Rng::for_case(11, "adopted", number as u64)));
    }
    for number in 0..2_000 {
        let mut rng = Rng::for_case(11, "adopt", number);
        let call = adopting::random(&mut rng).call(&mut rng);
        agree(&format!("adopt:{}", number), &single::touched(&mut rng, call));
    }
}

#[test]
fn lists_of_offers_are_replayed_as_by_the_reference() {
    for number in 0..600 {
        let mut rng = Rng::for_case(11, "replay", number);
        let call = replaying::random(&mut rng);
        agree(&format!("replay:{}", number), &call);
        agree(&format!("replay:{}", number), &single::touched(&mut rng, call));
    }
}

#[test]
fn many_vectors_and_long_files_as_by_the_reference() {
    for case in many::fixed() {
        agree(&case.about, &case.call);
    }
}

#[test]
fn the_floating_form_comes_close() {
    for number in 0..40 {
        let mut rng = Rng::for_case(11, "floating", number);
        let shape = gen::shape(&mut rng);
        let mut standing = Standing::fresh(lent::tables(&gen::tables(&mut rng, shape)));
        let mut float = floating::open(&convert::floating_tables(&standing.tables)).unwrap();
        for _ in 0..3 {
            let points: Vec<Vec<u64>> = (0..2).map(|_| gen::shares(&mut rng, shape.n, 100)).collect();
            let points: Vec<u32> = points.concat().iter().map(|&weight| weight as u32).collect();
            let level = standing.built(&points);
            let ended = TUNED.offer(&standing.tables, &[], &mut standing.certifier, &level);
            assert_eq!(ended, Refusal::default());
            assert!(floating::offer(&mut float, &convert::floating_level(&level, shape.n, shape.k)));
            let beliefs: Vec<Vec<f64>> = points.chunks(shape.n).map(convert::belief).collect();
            let made = floating::build(&float, &beliefs);
            for (ours, theirs) in standing.built(&points).corners.iter().zip(&made.corners) {
                assert!((*ours as f64 - theirs).abs() < 2.0);
            }
            let mixture = lent::mixture(&gen::mixture(&mut rng, shape.n), shape.n);
            let total: f64 = mixture.iter().map(|&weight| f64::from(weight)).sum();
            let exact = TUNED.totals(&standing.tables, &standing.certifier, &mixture);
            assert_eq!(exact.number, 0);
            let close = floating::totals(&float, &convert::belief(&mixture));
            assert!((exact.lower as f64 / total - close.lower).abs() < 1.0);
            // Corners, points and rows are rounded up by less than a tick at each level above the first.
            assert!((exact.upper as f64 / total - close.upper).abs() < 2.0);
            let rows = |exact: &[i64], close: &[f64]| {
                assert!(exact.iter().zip(close).all(|(exact, close)| (*exact as f64 - close).abs() < 2.0));
            };
            rows(&standing.certifier.informed, &float.informed);
            rows(&standing.certifier.qmdp, &float.qmdp);
        }
    }
}

#[test]
fn the_floating_form_reads_whole_models() {
    for number in 0..200 {
        let mut rng = Rng::for_case(11, "models", number);
        let file = files::random(&mut rng).file;
        if let Ok(read) = TUNED.read_into(&file, &Tables::roomy()) {
            if let Some((float, _)) = floating_file::read(&file) {
                let exact = convert::floating_tables(&read.tables);
                let close = |left: &[f64], right: &[f64]| left.iter().zip(right).all(|(x, y)| (x - y).abs() < 1e-6);
                assert!(close(&float.transitions, &exact.transitions));
                assert!(close(&float.sights, &exact.sights));
                assert!(close(&float.rewards, &exact.rewards));
            }
        }
    }
}
