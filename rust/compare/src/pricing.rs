//! New prices, accepted and refused, upon certifiers of any content.

use crate::gen::{self, Shape};
use crate::lent::{self, Call};
use crate::rng::Rng;
use crate::single;
use reference::{Certifier, Tables};

/// A random change: upon a certifier that was climbed to or holds anything, to other rewards, to another model, or to no model.
pub fn random(rng: &mut Rng) -> Call {
    let shape = gen::shape(rng);
    let (certifier, new) = if rng.once_in(3) {
        let (certifier, steps) = gen::handed(rng, shape);
        let new = steps.iter().find_map(|step| match step {
            gen::Step::Reprice(new) => Some(new.clone()),
            _ => None,
        });
        let new = new.unwrap_or_else(|| certifier.tables.clone());
        (certifier, new)
    } else {
        let levels = rng.below(4);
        let mut certifier = single::followed(&gen::list(rng, shape, levels));
        if rng.once_in(2) {
            gen::uncover(rng, &mut certifier, shape);
        }
        let new = gen::repriced(rng, &certifier.tables);
        (certifier, new)
    };
    let new = if rng.once_in(3) { gen::unpriced(rng, &new, shape) } else { new };
    call(&certifier, &new)
}

/// A change that is accepted.
pub fn served(rng: &mut Rng, certifier: &Certifier) -> Call {
    call(certifier, &gen::repriced(rng, &certifier.tables))
}

/// New tables upon a certifier.
pub fn call(certifier: &Certifier, new: &Tables) -> Call {
    let (tables, new) = (lent::tables(&certifier.tables), lent::tables(new));
    Call::Reprice { tables, new, certifier: lent::certifier(certifier) }
}

/// A change at the largest level and the largest model.
pub fn largest(rng: &mut Rng) -> Call {
    let (certifier, _) = gen::ends(rng, Shape::LARGEST);
    served(rng, &certifier)
}

#[cfg(test)]
mod tests {
    use super::*;
    use crate::copied::BY_THE_DOCUMENT;
    use std::collections::BTreeMap;

    #[test]
    fn every_end_of_a_change_occurs() {
        let mut seen: BTreeMap<i128, u64> = BTreeMap::new();
        for number in 0..900 {
            let call = random(&mut Rng::for_case(7, "prices", number));
            assert!(!call.to_string().is_empty());
            *seen.entry(call.made(&BY_THE_DOCUMENT).0[0]).or_insert(0) += 1;
        }
        assert_eq!(seen.keys().copied().collect::<Vec<_>>(), [0, 3, 5, 6, 7, 23]);
        assert!(seen.values().all(|&count| count > 10), "{:?}", seen);
    }
}
