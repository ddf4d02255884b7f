//! Two models that were to differ in their rewards alone: where else they do.

use biidhaqun::{Model, Shape};
use command::names::Named;
use command::numerals::shown;

/// The first difference, in a sentence: of the counts, of T, of O, of the discount.
pub fn difference(old: &Model, new: &Model, named: &Named) -> Option<String> {
    let told = |what: String, old: String, new: String| format!("{} {} in the first, {} in the second", what, old, new);
    let differ = |what: String, [old, new]: [u64; 2]| {
        let shown = |number: u64| shown(number as i64, 3);
        (old != new).then(|| told(format!("{} is", what), shown(old), shown(new)))
    };
    let (shape, other) = (old.shape(), new.shape());
    let counts = [
        ("states", shape.states, other.states),
        ("actions", shape.actions, other.actions),
        ("observations", shape.observations, other.observations),
    ];
    if let Some((kind, ours, theirs)) = counts.into_iter().find(|(_, ours, theirs)| ours != theirs) {
        return Some(told(format!("the {} are", kind), ours.to_string(), theirs.to_string()));
    }
    let mut transitions = cells(shape, shape.states).filter_map(|(action, state, reached)| {
        let names = (named.actions.or_number(action), named.states.or_number(state), named.states.or_number(reached));
        let what = format!("T of action {} from state {} to state {}", names.0, names.1, names.2);
        differ(what, [old, new].map(|model| model.transition(state, action, reached)))
    });
    let mut observations = cells(shape, shape.observations).filter_map(|(action, state, seen)| {
        let names =
            (named.actions.or_number(action), named.states.or_number(state), named.observations.or_number(seen));
        let what = format!("O of action {} at state {} for observation {}", names.0, names.1, names.2);
        differ(what, [old, new].map(|model| model.observation(action, state, seen)))
    });
    let discount = || differ("the discount".to_string(), [old, new].map(Model::discount));
    transitions.next().or_else(|| observations.next()).or_else(discount)
}

/// The places of a table by action, state, and so many more numbers.
fn cells(shape: Shape, width: usize) -> impl Iterator<Item = (usize, usize, usize)> {
    let rows = (0..shape.actions).flat_map(move |action| (0..shape.states).map(move |state| (action, state)));
    rows.flat_map(move |(action, state)| (0..width).map(move |last| (action, state, last)))
}

#[cfg(test)]
mod tests {
    use super::*;

    /// What is told where the dough is changed, and nothing where its rewards are.
    #[test]
    fn the_first_difference() {
        let dough = include_str!("../../../../examples/dough.pomdp");
        let (old, _) = Model::read(dough.as_bytes()).unwrap();
        let told = |change: [&str; 2]| {
            let changed = dough.replacen(change[0], change[1], 1);
            assert_ne!(changed, dough);
            let (new, _) = Model::read(changed.as_bytes()).unwrap();
            difference(&old, &new, &Named::default())
        };
        let is = |text: &str| Some(text.to_string());
        let transition = "T of action 0 from state 0 to state 0 is 0.5 in the first, 0.4 in the second";
        assert_eq!(told(["T: 0 : 0 0.5 0.5", "T: 0 : 0 0.4 0.6"]), is(transition));
        let observation = "O of action 0 at state 1 for observation 0 is 0.3 in the first, 0.25 in the second";
        assert_eq!(told(["0.3 0.7", "0.25 0.75"]), is(observation));
        assert_eq!(told(["discount: 0.9", "discount: 1"]), is("the discount is 0.9 in the first, 1 in the second"));
        assert_eq!(told(["R: 1 : 1 : * : * 6", "R: 1 : 1 : * : * 5"]), None);
        let (tiger, _) = Model::read(include_bytes!("../../../../examples/tiger.pomdp")).unwrap();
        let actions = "the actions are 2 in the first, 3 in the second";
        assert_eq!(difference(&old, &tiger, &Named::default()), is(actions));
    }
}
