//! The stack that each call takes, against what the C header says.

use crate::calls::{calls, every_call, wide_calls, FEW, LARGEST};
use crate::forms::made;
use crate::linked::{served, Linked};
use bench::inputs::Counts;
use bench::limits::{POINTS, VECTORS};
use bench::stack;
use compare::lent::Call;
use std::collections::BTreeMap;

/// The name of a call in the C header.
fn header_name(call: &Call) -> &'static str {
    match call {
        Call::Read { .. } => "biidhaqun_read",
        Call::Convert { .. } => "biidhaqun_convert",
        Call::Open { .. } => "biidhaqun_open",
        Call::List { .. } => "biidhaqun_list",
        Call::Offer { .. } => "biidhaqun_offer",
        Call::Reprice { .. } => "biidhaqun_reprice",
        Call::Replay { .. } => "biidhaqun_replay",
        Call::Totals { .. } => "biidhaqun_totals",
        Call::Each { .. } => "biidhaqun_each",
        Call::Within { .. } => "biidhaqun_within",
        Call::Build { .. } => "biidhaqun_build",
        Call::Adopt { .. } => "biidhaqun_adopt",
        Call::Worth { .. } => "biidhaqun_worth",
    }
}

/// The most stack that each call takes, of small models and levels, of those that are timed, and of the largest; and what the
/// header says, which must be no less.
pub fn stacks() -> Result<(), String> {
    let small = Counts { states: 2, actions: 2, observations: 2 };
    let timed = calls().into_iter().chain(wide_calls()).map(|(_, call)| call);
    let others = [(small, 1, 0), (small, FEW, POINTS), (LARGEST, 1, 0), (LARGEST, VECTORS, POINTS)];
    let others = others.iter().flat_map(|&(counts, vectors, points)| every_call(counts, vectors, points));
    let mut most: BTreeMap<&str, usize> = BTreeMap::new();
    for mut call in timed.chain(others) {
        served(&call)?;
        let taken = stack::taken(|| {
            made(&Linked, &mut call);
        })?;
        let most = most.entry(header_name(&call)).or_default();
        *most = taken.max(*most);
    }
    println!("\n{:<44} {:>10} {:>19}", "the stack that a call takes, in bytes", "most", "by the header");
    for (name, taken) in most {
        let stated = stack::stated(name).ok_or_else(|| format!("the header does not say what stack {} takes", name))?;
        println!("{:<44} {:>10} {:>19}", name, taken, stated);
        if taken > stated {
            return Err(format!("{} takes more stack than the header says", name));
        }
    }
    Ok(())
}
