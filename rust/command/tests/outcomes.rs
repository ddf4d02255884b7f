//! The reference and the shell that explains refused conversions, held against each other over the comparison's files.

use command::model_file::judge_outcomes;
use compare::files::{self, Case};
use compare::gen::DOCUMENT;
use compare::rng::Rng;
use reference::FILE_BYTES;

/// Random files, and the seed that they come from.
const RANDOM: u64 = 10_000;
const SEED: u64 = 7;

/// What is refused is refused by both, by the same number at the same place.
fn agree(case: &Case) {
    let converted = reference::convert(&case.file, FILE_BYTES, &DOCUMENT);
    let judged = judge_outcomes(&case.file);
    if let Err(trouble) = &judged {
        assert!(trouble.told.marks.iter().all(|mark| mark.span.end <= case.file.len()), "{}", case.about);
    }
    let converted = converted.err().map(|refusal| (u64::from(refusal.number), refusal.place as usize));
    assert_eq!(judged.err().map(|trouble| (trouble.number, trouble.place)), converted, "{}", case.about);
}

#[test]
fn on_the_fixed_files() {
    files::fixed_outcomes().iter().for_each(agree);
}

#[test]
fn on_random_files() {
    for number in 0..RANDOM {
        agree(&files::outcomes(&mut Rng::for_case(SEED, "outcomes", number)));
    }
}
