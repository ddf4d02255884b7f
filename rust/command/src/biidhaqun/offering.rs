//! Levels from elsewhere, offered in turn, and what is certified upon each.

use crate::building::{self, joined, or_start, progress, refused_at, Known, Read};
use crate::levels::{self, Certified};
use crate::stop::{put, Stop};
use biidhaqun::{Certifier, Error, Mixture, Refusal, Rule, Totals, TotalsWithin};
use command::options::{Ranges, Weights};

/// Where levels are asked.
pub struct Asked<'a> {
    pub at: &'a [Weights],
    pub within: &'a [Ranges],
}

impl Asked<'_> {
    /// Whether nothing is asked but what is so by default.
    pub fn is_empty(&self) -> bool {
        self.at.is_empty() && self.within.is_empty()
    }
}

/// What is certified at mixtures and within ranges; none where no vector counts.
type Answers = (Vec<Option<Totals>>, Vec<Option<TotalsWithin>>);

/// Offers so many levels, as `offer` does with the number of each, and prints what is certified upon them; what was certified
/// before a refusal too.
pub fn run(
    read: &Read,
    count: usize,
    asked: &Asked,
    json: bool,
    mut offer: impl FnMut(&mut Certifier, usize) -> Result<(), Stop>,
) -> Result<(), Stop> {
    let Read { model, start, named, .. } = read;
    let states = model.shape().states;
    let mixtures = &or_start(building::fitting("--at", asked.at, states)?, start);
    let ranges = &Known::all(asked.within, states)?;
    let mut certifier = Certifier::open(model).map_err(|refusal| Stop::Ours(refusal.to_string()))?;
    let (mut lines, mut inside, mut levels) = (Vec::new(), Vec::new(), Vec::new());
    let mut refused = None;
    let bar = progress(count as u64, "levels");
    for number in 0..count {
        // With the level that is refused, if it is one.
        let answered = match offer(&mut certifier, number) {
            Ok(()) => answers(&certifier, mixtures, ranges).map_err(|stop| (None, stop)),
            Err(stop) => Err((Some(number + 1), stop)),
        };
        match answered {
            Ok((totals, within)) => {
                lines.push(totals);
                inside.push(within);
                levels.push(certifier.standing());
            }
            Err(stop) => {
                refused = Some(stop);
                break;
            }
        }
        bar.inc(1);
    }
    drop(bar);
    let (lines, inside, levels, prices) = (&lines, &inside, &levels, None);
    let certified = Certified { model, named, mixtures, lines, ranges, inside, levels, prices };
    match refused {
        None => {
            put(&levels::text(&certified, json, asked.is_empty()))?;
            uncounted(&certified).map_or(Ok(()), |told| Err(printed(Stop::Levels(told))))
        }
        Some((level, stop)) if json => match levels::refused_upon(&certified, &stop, level) {
            Some(text) => put(&text).and(Err(printed(stop))),
            None => Err(stop),
        },
        Some((_, stop)) => {
            if !lines.is_empty() {
                put(&levels::text(&certified, false, asked.is_empty()))?;
            }
            Err(stop)
        }
    }
}

/// A stop of which standard output has all.
fn printed(stop: Stop) -> Stop {
    Stop::Printed(Box::new(stop))
}

/// What is certified upon the level that stands.
fn answers(certifier: &Certifier, mixtures: &[Mixture], ranges: &[Known]) -> Result<Answers, Stop> {
    let at = |mixture: &Mixture| match certifier.totals(mixture) {
        Ok(totals) => Ok(Some(totals)),
        Err(Error::Refused(Refusal { rule: Rule::Counting, .. })) => Ok(None),
        Err(error) => Err(refused_at(mixture, error)),
    };
    let totals = mixtures.iter().map(at).collect::<Result<_, _>>()?;
    let within = ranges.iter().map(|known| known.totals(certifier)).collect::<Result<_, _>>()?;
    Ok((totals, within))
}

/// The first level and place at which no vector counts, in a sentence.
fn uncounted(certified: &Certified) -> Option<String> {
    let mut levels = certified.lines.iter().zip(certified.inside).enumerate();
    levels.find_map(|(number, (totals, within))| {
        let mixture = totals.iter().position(Option::is_none);
        let range = within.iter().position(Option::is_none);
        let at = mixture.map(|at| (format!("at {}", joined(&certified.mixtures[at].weights)), "has"));
        let (place, has) = at.or_else(|| range.map(|at| (format!("within {}", certified.ranges[at].text), "may have")))?;
        Some(format!(
            "level {} is accepted, but certifies nothing {}: each of its vectors leaves out a state that {} weight there; \
             `biidhaqun explain {}` says more",
            number + 1,
            place,
            has,
            Rule::Counting.number()
        ))
    })
}
