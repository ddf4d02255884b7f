//! Files whose rewards depend on what follows, of any content, converted into outputs of any length.

use crate::copied::BY_THE_DOCUMENT;
use crate::files;
use crate::gen::DOCUMENT;
use crate::lent::{Call, Library, Slice};
use crate::rng::Rng;
use num_bigint::BigInt;
use reference::{read, read_outcomes, FILE_BYTES};

/// The call, with an output of so many bytes and anything in it.
pub fn call(rng: &mut Rng, file: Vec<u8>, length: usize) -> Call {
    let mut output = Vec::new();
    output.sized(length, rng);
    Call::Convert { file, output }
}

/// A random file, most of them with rewards by outcome, and an output that is mostly long enough.
pub fn random(rng: &mut Rng) -> Call {
    let file = match rng.below(12) {
        0 => files::random(rng).file,
        1 => files::noise(rng),
        _ => files::outcomes(rng).file,
    };
    let short = rng.index(FILE_BYTES);
    let length = match rng.below(24) {
        0 => FILE_BYTES - 1,
        1 => rng.pick(&[0, 1, short, short]),
        2..=4 => FILE_BYTES + 1 + rng.index(70),
        _ => FILE_BYTES,
    };
    call(rng, file, length)
}

/// A random file with rewards by outcome, and an output that is as long as it must be.
pub fn exactly(rng: &mut Rng) -> Call {
    let file = files::outcomes(rng).file;
    call(rng, file, FILE_BYTES)
}

/// The fixed file of this number; every tenth, and every other that is too long, goes into an output that is a byte too short.
pub fn fixed(cases: &[files::Case], number: usize) -> Option<Call> {
    let file = cases.get(number)?.file.clone();
    let short = number % if file.len() > FILE_BYTES { 2 } else { 10 } == 0;
    let length = if short { FILE_BYTES - 1 } else { FILE_BYTES };
    Some(call(&mut Rng::for_case(0, "converted", number as u64), file, length))
}

/// How what a library writes, read back by the reference, differs from what the file holds: T, O, discount and start are the
/// same, and each reward times 1,000,000 is the sum over outcomes of T × O × the outcome's reward.
fn read_back(call: &Call, by: &dyn Library) -> Option<String> {
    let (answer, after) = call.made(by);
    let (file, output) = match &after {
        Call::Convert { file, output } if answer[0] == 0 => (file, output),
        _ => return None,
    };
    let written = &output[..answer[2] as usize];
    let back = match read(written, &DOCUMENT) {
        Ok(back) => back,
        Err(refusal) => return Some(format!("what is written is {}", refusal)),
    };
    let (source, outcomes) = match read_outcomes(file, &DOCUMENT) {
        Ok(read) => read,
        Err(refusal) => return Some(format!("the file is {}", refusal)),
    };
    let (old, new) = (&source.tables, &back.tables);
    let counts = (old.states, old.actions, old.observations, old.discount);
    if counts != (new.states, new.actions, new.observations, new.discount) || source.start != back.start {
        return Some("counts, discount or start read back otherwise".to_string());
    }
    if old.transitions != new.transitions || old.sights != new.sights {
        return Some("T or O read back otherwise".to_string());
    }
    let (n, m, k) = (old.states as usize, old.actions as usize, old.observations as usize);
    for a in 0..m {
        for s in 0..n {
            let outcome = |s2: usize, o: usize| {
                let weight = old.transitions[old.transition_cell(a, s, s2)] * old.sights[old.sight_cell(a, s2, o)];
                BigInt::from(weight) * outcomes[old.outcome_cell(a, s, s2, o)]
            };
            let sum: BigInt = (0..n).flat_map(|s2| (0..k).map(move |o| (s2, o))).map(|(s2, o)| outcome(s2, o)).sum();
            let reward = new.rewards[new.reward_cell(a, s)];
            if BigInt::from(reward) * 1_000_000 != sum {
                return Some(format!("action {}, state {}: {} is written for {} millionths", a, s, reward, sum));
            }
        }
    }
    None
}

/// What is wrong with a call by a library: it differs from the document, or what is written reads back otherwise.
pub fn difference(call: &Call, by: &dyn Library) -> Option<String> {
    call.difference(&BY_THE_DOCUMENT, by).or_else(|| read_back(call, by))
}

#[cfg(test)]
mod tests {
    use super::*;
    use std::collections::BTreeMap;

    #[test]
    fn every_end_of_a_conversion_occurs() {
        let mut seen: BTreeMap<i128, u64> = BTreeMap::new();
        for number in 0..1_500 {
            let call = random(&mut Rng::for_case(8, "convert", number));
            assert!(!call.to_string().is_empty());
            assert_eq!(difference(&call, &BY_THE_DOCUMENT), None, "convert:{}", number);
            *seen.entry(call.made(&BY_THE_DOCUMENT).0[0]).or_insert(0) += 1;
        }
        let often = |number: i128| seen.get(&number).map_or(0, |&count| count);
        assert!(often(0) > 300 && often(26) > 100 && often(25) > 15 && often(27) > 50, "{:?}", seen);
        assert!([2, 3, 5, 6].iter().all(|&number| often(number) > 5), "{:?}", seen);
    }

    #[test]
    fn the_fixed_files() {
        let cases = files::fixed_outcomes();
        let mut seen: BTreeMap<i128, u64> = BTreeMap::new();
        for number in 0..cases.len() {
            let call = fixed(&cases, number).unwrap();
            assert_eq!(difference(&call, &BY_THE_DOCUMENT), None, "{}", cases[number].about);
            *seen.entry(call.made(&BY_THE_DOCUMENT).0[0]).or_insert(0) += 1;
        }
        assert!((0..=6).chain(25..=27).all(|number| seen.contains_key(&number)), "{:?}", seen);
    }
}
