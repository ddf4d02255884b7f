//! Floor and ceilings over the levels at one mixture: a bar from the floor to the lower ceiling for each level.

use super::colours::{action, filled, line, FLOOR, INFORMED, SAWTOOTH};
use super::line::{called, legend};
use super::{Area, Drawn, Sample};
use command::names::Named;
use plotters::prelude::{ChartBuilder, PathElement, Rectangle};
use plotters::style::RGBColor;
use std::ops::Range;

/// Half the width of a bar, in levels.
const HALF: f64 = 0.3;

pub fn draw(area: &Area, title: &str, samples: &[Sample], named: &Named) -> Drawn {
    let reach = range(samples.iter().copied());
    let mut chart = ChartBuilder::on(area)
        .caption(title, ("sans-serif", 18))
        .margin(12)
        .x_label_area_size(40)
        .y_label_area_size(60)
        .build_cartesian_2d(0.5..samples.len() as f64 + 0.5, reach.clone())?;
    chart
        .configure_mesh()
        .disable_x_mesh()
        .x_labels(samples.len().min(12))
        .x_label_formatter(&|level| if level.fract() == 0.0 { format!("{}", level) } else { String::new() })
        .y_label_formatter(&|value| short(*value))
        .x_desc("level (steps)")
        .y_desc("discounted reward: floor to ceiling")
        .max_light_lines(0)
        .draw()?;
    for (number, used) in actions(samples.iter().copied()).into_iter().enumerate() {
        if !used {
            continue;
        }
        let mine = samples.iter().enumerate().filter(|(_, sample)| sample.action == number);
        let bars = mine.map(|(at, sample)| {
            let level = at as f64 + 1.0;
            Rectangle::new([(level - HALF, sample.floor()), (level + HALF, sample.ceiling())], filled(action(number)))
        });
        chart
            .draw_series(bars)?
            .label(called(named, number))
            .legend(move |(x, y)| Rectangle::new([(x, y - 5), (x + 12, y + 5)], filled(action(number))));
    }
    // Both ends of each bar, so that a gap of 0 is seen, and the higher ceiling; where both are the same, both are seen too.
    for end in ENDS {
        let End { colour, wide, of, .. } = end;
        let seen = samples.iter().enumerate().filter(|(_, sample)| reach.contains(&of(sample)));
        let ends = seen.map(|(at, sample)| {
            let (level, end) = (at as f64 + 1.0, of(sample));
            PathElement::new([(level - HALF, end), (level + HALF, end)], line(colour, 2 * wide))
        });
        chart
            .draw_series(ends)?
            .label(end.called(samples.iter(), &reach))
            .legend(move |(x, y)| PathElement::new([(x, y), (x + 12, y)], line(colour, 2 * wide)));
    }
    legend(&mut chart)
}

/// A line that is drawn through all samples.
pub struct End {
    pub name: &'static str,
    pub colour: RGBColor,
    /// How many times as wide as the others.
    pub wide: u32,
    pub of: fn(&Sample) -> f64,
}

impl End {
    /// Its name, and whether it lies above what is drawn.
    pub fn called<'a>(&self, samples: impl Iterator<Item = &'a Sample>, reach: &Range<f64>) -> String {
        let above: Vec<bool> = samples.map(|sample| (self.of)(sample) > reach.end).collect();
        match above.iter().filter(|&&above| above).count() {
            0 => self.name.to_string(),
            some if some < above.len() => format!("{} (in part above)", self.name),
            _ => format!("{} (above)", self.name),
        }
    }
}

/// The wider ones first, so that those that lie upon them leave an edge.
pub const ENDS: [End; 3] = [
    End { name: "informed ceiling", colour: INFORMED, wide: 2, of: Sample::informed },
    End { name: "sawtooth ceiling", colour: SAWTOOTH, wide: 1, of: Sample::sawtooth },
    End { name: "floor", colour: FLOOR, wide: 1, of: Sample::floor },
];

/// How much of the height is left to what lies above all brackets, in parts of theirs.
const ABOVE: f64 = 0.5;

/// The range of brackets and of the higher ceilings, as far as these leave the brackets most of the height; with some room
/// around it.
pub fn range(samples: impl Iterator<Item = Sample>) -> Range<f64> {
    let (mut low, mut high, mut top) = (f64::MAX, f64::MIN, f64::MIN);
    for sample in samples {
        low = low.min(sample.floor());
        high = high.max(sample.ceiling());
        top = top.max(sample.sawtooth()).max(sample.informed());
    }
    let high = top.min(high + ABOVE * (high - low));
    let room = if high > low { 0.06 * (high - low) } else { 1.0 };
    low - room..high + room
}

/// Which actions occur.
pub fn actions(samples: impl Iterator<Item = Sample>) -> [bool; 8] {
    let mut used = [false; 8];
    for sample in samples {
        if let Some(used) = used.get_mut(sample.action) {
            *used = true;
        }
    }
    used
}

/// A number at an axis.
pub fn short(value: f64) -> String {
    let text = format!("{:.3}", value);
    let text = text.trim_end_matches('0').trim_end_matches('.');
    if text == "-0" { "0" } else { text }.to_string()
}
