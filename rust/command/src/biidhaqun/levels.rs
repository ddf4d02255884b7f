//! `levels`: what is certified at points and mixtures and within ranges, level by level.

use crate::building::{self, joined, Building, Known};
use crate::offering::Asked;
use crate::prices;
use crate::stop::{put, Stop};
use biidhaqun::slices::full_mask;
use biidhaqun::{Certifier, Level, Mixture, Model, Refusal, Rule, Totals, TotalsWithin};
use command::names::{Named, Names};
use command::options::Built;
use serde_json::{json, Value};
use std::path::Path;

/// What was certified: at each level, at each of the mixtures and within each of the ranges asked for.
pub struct Certified<'a> {
    pub model: &'a Model,
    pub named: &'a Named,
    pub mixtures: &'a [Mixture],
    /// None where no vector counts.
    pub lines: &'a [Vec<Option<Totals>>],
    pub ranges: &'a [Known],
    /// None where no vector counts at the highs.
    pub inside: &'a [Vec<Option<TotalsWithin>>],
    /// The levels that were accepted.
    pub levels: &'a [Level],
    /// What is certified after new prices.
    pub prices: Option<&'a Prices>,
}

/// New prices after the last level, and what is certified then.
pub struct Prices {
    /// The model file that says them.
    file: String,
    at: Vec<Option<Totals>>,
    inside: Vec<Option<TotalsWithin>>,
}

pub fn run(built: &Built, asked: &Asked, prices: Option<&Path>, json: bool) -> Result<(), Stop> {
    let building = Building::of(built, asked.at)?;
    let ranges = Known::all(asked.within, building.model.shape().states)?;
    let (mut lines, mut inside, mut levels) = (Vec::new(), Vec::new(), Vec::new());
    let mut certifier = building.climb(|certifier| {
        let totals = building.mixtures.iter().map(|mixture| building.totals(certifier, mixture).map(Some));
        lines.push(totals.collect::<Result<_, _>>()?);
        inside.push(ranges.iter().map(|known| known.totals(certifier)).collect::<Result<_, _>>()?);
        levels.push(certifier.standing());
        Ok(())
    })?;
    let prices = match prices {
        None => None,
        Some(path) => {
            reprice(&mut certifier, built, &building.named, path)?;
            let at = building.mixtures.iter().map(|mixture| building.totals(&certifier, mixture).map(Some));
            let inside = ranges.iter().map(|known| known.totals(&certifier));
            let (at, inside) = (at.collect::<Result<_, _>>()?, inside.collect::<Result<_, _>>()?);
            Some(Prices { file: path.display().to_string(), at, inside })
        }
    };
    let Building { model, named, mixtures, .. } = &building;
    let plain = built.levels.is_none() && built.points.is_empty() && asked.is_empty() && prices.is_none();
    let (lines, ranges, inside, levels, prices) = (&lines, &ranges, &inside, &levels, prices.as_ref());
    put(&text(&Certified { model, named, mixtures, lines, ranges, inside, levels, prices }, json, plain))
}

/// Puts the rewards of another model file in force.
fn reprice(certifier: &mut Certifier, built: &Built, named: &Named, path: &Path) -> Result<(), Stop> {
    let new = building::read(path)?.model;
    certifier.reprice(&new).map_err(|refusal| {
        let other = prices::difference(certifier.model(), &new, named);
        let other = other.map_or(String::new(), |other| format!("; {}", other));
        let files = format!("{} and {}", built.file.display(), path.display());
        Stop::Refused { refusal, note: format!("{} may differ in their rewards alone{}", files, other) }
    })
}

/// One JSON object, the lines of `ladder`, or tables.
pub fn text(certified: &Certified, json: bool, plain: bool) -> String {
    match (json, plain) {
        (true, _) => written(&object(certified)),
        (false, true) => ladder(certified.lines),
        (false, false) => tables(certified),
    }
}

/// The lines of the program `ladder`; where no vector counts, the refusal.
fn ladder(lines: &[Vec<Option<Totals>>]) -> String {
    let line = |(level, totals): (usize, &Vec<Option<Totals>>)| {
        let line = |at: &Option<Totals>| match at {
            Some(at) => format!("{} {} {} {} {}\n", level + 1, at.lower, at.upper, at.gap, at.action),
            None => format!("{} refused {} at 0\n", level + 1, Rule::Counting.number()),
        };
        totals.iter().map(line).collect::<String>()
    };
    lines.iter().enumerate().map(line).collect()
}

/// Which ceiling the upper total is.
fn by(at: &Totals) -> String {
    if at.sawtooth == at.informed {
        "both".to_string()
    } else {
        at.speaks().to_string()
    }
}

/// A table for each mixture and for each of the ranges, and what their columns are.
fn tables(certified: &Certified) -> String {
    let mixtures: Vec<String> = (0..certified.mixtures.len()).map(|number| table(certified, number)).collect();
    let mut text = mixtures.join("\n");
    text.push_str("\nfloor, ceiling, gap: units of reward, rounded outwards: the floor down, the others up\n");
    text.push_str("lower, upper: ticks x the mixture's total weight\n");
    text.push_str(
        "by: which ceiling is the lower one, the sawtooth of corners and points or the fast informed bound\n",
    );
    for number in 0..certified.ranges.len() {
        text.push('\n');
        text.push_str(&table_within(certified, number));
    }
    if !certified.ranges.is_empty() {
        text.push_str("\nwithin ranges, lower, upper: the best plan at each mixture inside earns between the two\n");
    }
    if let Some(prices) = certified.prices {
        let last = certified.lines.len();
        text.push_str(&format!("\n{}: level {} once the rewards of {} are in force\n", NEW, last, prices.file));
    }
    text
}

/// The table of a mixture: in units of reward, in ticks times the weight, which ceiling speaks, and the action.
fn table(certified: &Certified, number: usize) -> String {
    let mixture = &certified.mixtures[number];
    let head = format!(
        "at {}\n{:>5} {:>12} {:>12} {:>10} {:>14} {:>14}  {:<8}  {}\n",
        about(certified.named, mixture),
        "level",
        "floor",
        "ceiling",
        "gap",
        "lower",
        "upper",
        "by",
        "action"
    );
    let line = |level: &str, at: &Totals| {
        let bracket = at.bracket(mixture);
        let gap = Totals { lower: 0, upper: at.gap, ..*at }.bracket(mixture).ceiling;
        format!(
            "{:>5} {:>12} {:>12} {:>10} {:>14} {:>14}  {:<8}  {}\n",
            level,
            bracket.floor,
            bracket.ceiling,
            gap,
            at.lower,
            at.upper,
            by(at),
            certified.named.actions.or_number(at.action)
        )
    };
    let levels = certified.lines.iter().map(|totals| &totals[number]);
    head + &rows(levels, certified.prices.map(|prices| &prices.at[number]), line)
}

/// The table of the ranges with this number.
fn table_within(certified: &Certified, number: usize) -> String {
    let head = format!("within {}\n{:>5} {:>14} {:>14}\n", certified.ranges[number].text, "level", "lower", "upper");
    let line = |level: &str, at: &TotalsWithin| format!("{:>5} {:>14} {:>14}\n", level, at.lower, at.upper);
    let levels = certified.inside.iter().map(|totals| &totals[number]);
    head + &rows(levels, certified.prices.map(|prices| &prices.inside[number]), line)
}

/// A line for each level, and one for what is certified after new prices.
fn rows<'a, At: 'a>(
    levels: impl Iterator<Item = &'a Option<At>>,
    new: Option<&'a Option<At>>,
    line: impl Fn(&str, &At) -> String,
) -> String {
    let levels = levels.enumerate().map(|(level, at)| ((level + 1).to_string(), at));
    let all = levels.chain(new.map(|at| (NEW.to_string(), at)));
    all.map(|(level, at)| match at {
        Some(at) => line(&level, at),
        None => format!("{:>5} no vector counts here\n", level),
    })
    .collect()
}

/// What stands in place of a level's number after new prices.
const NEW: &str = "new";

/// The weights, and which state they are on where names are known.
fn about(named: &Named, mixture: &Mixture) -> String {
    let mut text = joined(&mixture.weights);
    if !named.states.all().is_empty() {
        let part = |(state, weight): (usize, &u32)| format!("{} {}", named.states.or_number(state), weight);
        let parts: Vec<String> =
            mixture.weights.iter().enumerate().filter(|(_, &weight)| weight > 0).map(part).collect();
        text.push_str(&format!(" ({})", parts.join(", ")));
    }
    text
}

/// All of it as one JSON object.
fn object(certified: &Certified) -> Value {
    let (shape, named) = (certified.model.shape(), certified.named);
    let names = |names: &Names| match names.all() {
        [] => Value::Null,
        all => json!(all),
    };
    let mut object = json!({
        "states": shape.states,
        "actions": shape.actions,
        "observations": shape.observations,
        "discount": certified.model.discount() as f64 / 1_000.0,
        "names": {
            "states": names(&named.states),
            "actions": names(&named.actions),
            "observations": names(&named.observations),
        },
        "levels": (0..certified.levels.len()).map(|number| level(certified, number)).collect::<Vec<_>>(),
    });
    if let Some(prices) = certified.prices {
        let new = json!({ "file": prices.file, "level": certified.lines.len() });
        object["prices"] = with_answers(new, certified, &prices.at, &prices.inside);
    }
    object
}

/// An object in lines.
fn written(object: &Value) -> String {
    format!("{:#}\n", object)
}

/// A level and what is certified upon it.
fn level(certified: &Certified, number: usize) -> Value {
    let level = &certified.levels[number];
    let states = certified.model.shape().states;
    let vectors = level.vectors().map(|vector| {
        let mut object = json!({ "action": vector.action, "choices": vector.choices, "entries": vector.entries });
        // Not as a number: tools that keep numbers in floating point change one of more than 53 bits.
        if vector.mask != full_mask(states) {
            object["mask"] = vector.covered().collect();
        }
        object
    });
    let points = level.points().map(|point| json!({ "weights": point.weights, "value": point.value }));
    let object = json!({
        "level": number + 1,
        "vectors": vectors.collect::<Vec<_>>(),
        "corners": level.corners(),
        "points": points.collect::<Vec<_>>(),
    });
    with_answers(object, certified, &certified.lines[number], &certified.inside[number])
}

/// An object, with what is certified at the mixtures and, where there are ranges, within them.
fn with_answers(
    mut object: Value,
    certified: &Certified,
    at: &[Option<Totals>],
    inside: &[Option<TotalsWithin>],
) -> Value {
    let at = certified.mixtures.iter().zip(at).map(|(mixture, at)| answer(certified.named, mixture, at));
    object["at"] = at.collect();
    if !certified.ranges.is_empty() {
        object["within"] = certified.ranges.iter().zip(inside).map(|(known, at)| answer_within(known, at)).collect();
    }
    object
}

/// What is certified at a mixture.
fn answer(named: &Named, mixture: &Mixture, at: &Option<Totals>) -> Value {
    let at = match at {
        Some(at) => at,
        None => return json!({ "weights": mixture.weights, "refused": Rule::Counting.number() }),
    };
    let bracket = at.bracket(mixture);
    json!({
        "weights": mixture.weights,
        "lower": at.lower,
        "upper": at.upper,
        "gap": at.gap,
        "floor": f64::from(bracket.floor),
        "ceiling": f64::from(bracket.ceiling),
        "sawtooth": at.sawtooth,
        "informed": at.informed,
        "action": at.action,
        "action_name": named.actions.get(at.action),
    })
}

/// What is certified within ranges.
fn answer_within(known: &Known, at: &Option<TotalsWithin>) -> Value {
    let (lows, highs) = (&known.lows.weights, &known.highs.weights);
    match at {
        Some(at) => json!({ "lows": lows, "highs": highs, "lower": at.lower, "upper": at.upper }),
        None => json!({ "lows": lows, "highs": highs, "refused": Rule::Counting.number() }),
    }
}

/// A refusal as one JSON object; none for what is no refusal.
pub fn refused(stop: &Stop) -> Option<String> {
    Some(written(&json!({ "levels": [], "refused": refusal(stop, None)? })))
}

/// What was certified before a refusal, and the refusal, of the level with this number if it is of one; none for what is no
/// refusal.
pub fn refused_upon(certified: &Certified, stop: &Stop, level: Option<usize>) -> Option<String> {
    let mut object = object(certified);
    object["refused"] = refusal(stop, level)?;
    Some(written(&object))
}

/// The number and the place where it is the library's refusal, the level that is refused, and what is told.
fn refusal(stop: &Stop, level: Option<usize>) -> Option<Value> {
    let text = match (stop.refusal(), stop) {
        (Some(refusal), _) => refusal.to_string(),
        (None, Stop::Levels(message) | Stop::Ours(message)) => message.clone(),
        _ => return None,
    };
    Some(json!({
        "number": stop.refusal().map(Refusal::number),
        "place": stop.refusal().map(|refusal| refusal.place.number()),
        "level": level,
        "text": text,
        "detail": stop.detail(),
    }))
}

#[cfg(test)]
mod tests {
    use super::*;
    use crate::certify::MEBIBYTES;
    use biidhaqun::Shape;

    /// A hundred levels with the longest numbers, asked at some mixtures, are printed in fewer bytes than are read.
    #[test]
    fn the_largest_levels_are_read_again() {
        let file = format!(
            "discount: 1 values: reward states: 64 actions: 8 observations: 8 start: 1{} T: * : * : 0 1 O: * : * : 0 1",
            " 0".repeat(63)
        );
        let (model, _) = Model::read(file.as_bytes()).unwrap();
        let mut level = Level::new(Shape { states: 64, actions: 8, observations: 8 });
        for _ in 0..1_000 {
            level.add_masked_vector(7, &[999; 8], !1, &[-10_000_000; 64]).unwrap();
        }
        level.set_corners(&[-10_000_000; 64]).unwrap();
        for _ in 0..32 {
            level.add_point(&[100; 64], -1_000_000_000).unwrap();
        }
        let far = -640_000_000_000_000;
        let totals = Totals { lower: far, upper: far, gap: -far, action: 7, sawtooth: far, informed: far };
        let mixtures = vec![Mixture::new(&[1_000_000; 64]); 100];
        let certified = Certified {
            model: &model,
            named: &Named::default(),
            mixtures: &mixtures,
            lines: &[vec![Some(totals); mixtures.len()]],
            ranges: &[],
            inside: &[Vec::new()],
            levels: &[level],
            prices: None,
        };
        let printed = written(&object(&certified)).len();
        assert!(100 * printed < MEBIBYTES << 20, "{}", printed);
    }
}
