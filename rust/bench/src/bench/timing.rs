//! What a call costs: medians over rounds in which all forms take turns.

use crate::floats::floating_form;
use crate::forms::{Form, Lent};
use crate::linked::{served, Linked};
use bench::plain::PLAIN;
use bench::tuned::TUNED;
use compare::lent::{Call, Library};
use std::time::{Duration, Instant};

/// How long one form runs in a round.
const SLICE: Duration = Duration::from_millis(1);

/// The seconds of one call, from as many as fill a slice.
fn seconds(form: &mut dyn Form, calls: usize, sink: &mut i64) -> f64 {
    let mut spent = Duration::ZERO;
    if form.changes() {
        for _ in 0..calls {
            form.prepare();
            let start = Instant::now();
            *sink = sink.wrapping_add(form.call());
            spent += start.elapsed();
        }
    } else {
        let start = Instant::now();
        for _ in 0..calls {
            *sink = sink.wrapping_add(form.call());
        }
        spent = start.elapsed();
    }
    spent.as_secs_f64() / calls as f64
}

/// The middle of a list.
fn median(mut values: Vec<f64>) -> f64 {
    values.sort_by(f64::total_cmp);
    values.get(values.len() / 2).copied().unwrap_or(f64::NAN)
}

/// What was measured of a call.
pub struct Measured {
    /// The library's time over that of the obvious, the tuned and the floating form.
    pub ratios: [f64; 3],
    /// The library's time, in seconds.
    pub ours: f64,
}

fn measured(mut forms: [Box<dyn Form + '_>; 4], rounds: usize) -> Measured {
    let mut sink = 0;
    let calls: Vec<usize> = forms.iter_mut().map(|form| calls_in_slice(form.as_mut(), &mut sink)).collect();
    let mut times: [Vec<f64>; 4] = Default::default();
    for _ in 0..rounds {
        for ((form, &calls), times) in forms.iter_mut().zip(&calls).zip(&mut times) {
            times.push(seconds(form.as_mut(), calls, &mut sink));
        }
    }
    // Printing depends on it: no call can be left out.
    if sink == i64::MIN {
        println!();
    }
    let ratio = |other: &[f64]| median(times[0].iter().zip(other).map(|(library, other)| library / other).collect());
    Measured { ratios: [ratio(&times[1]), ratio(&times[2]), ratio(&times[3])], ours: median(times[0].clone()) }
}

/// How many calls of a form fill a slice.
fn calls_in_slice(form: &mut dyn Form, sink: &mut i64) -> usize {
    let mut calls = 1;
    loop {
        let spent = seconds(form, calls, sink) * calls as f64;
        if spent * 2.0 >= SLICE.as_secs_f64() || calls >= 1 << 20 {
            return calls;
        }
        calls *= 2;
    }
}

/// What a call costs, if all forms make it alike and serve it.
pub fn measure(call: &Call, rounds: usize) -> Result<Measured, String> {
    served(call)?;
    for other in [&PLAIN as &dyn Library, &TUNED] {
        if let Some(found) = call.difference(&Linked, other) {
            return Err(format!("the forms do not agree: {}", found));
        }
    }
    let lent = |by: &'static dyn Library| Box::new(Lent::new(by, call));
    Ok(measured([lent(&Linked), lent(&PLAIN), lent(&TUNED), floating_form(call)?], rounds))
}
