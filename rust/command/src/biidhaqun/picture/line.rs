//! Two states: floor, ceilings and the regions of the actions over all mixtures.

use super::colours::{action, filled, INK, WHITE};
use super::levels::{actions, range, short, End, ENDS};
use super::{Area, Drawn, Sample};
use biidhaqun::Mixture;
use command::names::Named;
use plotters::coord::ranged1d::Ranged;
use plotters::prelude::{Cartesian2d, ChartBuilder, ChartContext, Rectangle, SVGBackend, SeriesLabelPosition};
use plotters::style::Color;

/// How many parts the line of mixtures is sampled in.
const PARTS: u32 = 400;

/// All weight on state 0, up to all on state 1.
pub fn mixtures() -> Vec<Mixture> {
    (0..=PARTS).map(|weight| Mixture::new(&[PARTS - weight, weight])).collect()
}

pub fn draw(area: &Area, title: &str, samples: &[(Mixture, Sample)], named: &Named) -> Drawn {
    let brackets = || samples.iter().map(|(_, sample)| *sample);
    let reach = range(brackets());
    // A mark is as high as a line is wide, and the strip of actions below all as high as a word.
    let (thick, strip) = (0.006 * (reach.end - reach.start), 0.035 * (reach.end - reach.start));
    let ground = reach.start - strip;
    let mut chart = ChartBuilder::on(area)
        .caption(title, ("sans-serif", 18))
        .margin(12)
        .x_label_area_size(40)
        .y_label_area_size(60)
        .build_cartesian_2d(0.0..1.0, ground..reach.end)?;
    chart
        .configure_mesh()
        .disable_x_mesh()
        .y_label_formatter(&|value| short(*value))
        .x_desc(match named.states.get(1) {
            Some(name) => format!("share of state 1 ({})", name),
            None => "share of state 1".to_string(),
        })
        .max_light_lines(0)
        .draw()?;
    // A sample reaches half-way to the next on either side.
    let half = 0.5 / PARTS as f64;
    let sides = |mixture: &Mixture| {
        let at = mixture.weights[1] as f64 / PARTS as f64;
        ((at - half).max(0.0), (at + half).min(1.0))
    };
    for (number, used) in actions(brackets()).into_iter().enumerate() {
        if !used {
            continue;
        }
        let mine = samples.iter().filter(|(_, sample)| sample.action == number);
        let bars = mine.flat_map(|(mixture, sample)| {
            let (left, right) = sides(mixture);
            [(sample.floor(), sample.ceiling()), (ground, ground + strip)]
                .map(|(low, high)| Rectangle::new([(left, low), (right, high)], filled(action(number))))
        });
        chart
            .draw_series(bars)?
            .label(called(named, number))
            .legend(move |(x, y)| Rectangle::new([(x, y - 5), (x + 12, y + 5)], filled(action(number))));
    }
    for end in ENDS {
        let End { colour, wide, of, .. } = end;
        let half = f64::from(wide) * thick / 2.0;
        let seen = samples.iter().filter(|(_, sample)| reach.contains(&of(sample)));
        let marks = seen.map(|(mixture, sample)| {
            let (left, right) = sides(mixture);
            let at = of(sample);
            Rectangle::new([(left, at - half), (right, at + half)], filled(colour))
        });
        let high = wide as i32;
        chart
            .draw_series(marks)?
            .label(end.called(samples.iter().map(|(_, sample)| sample), &reach))
            .legend(move |(x, y)| Rectangle::new([(x, y - high), (x + 12, y + high)], filled(colour)));
    }
    legend(&mut chart)
}

/// An action in a legend.
pub fn called(named: &Named, action: usize) -> String {
    named.actions.get(action).map_or_else(|| format!("action {}", action), str::to_string)
}

/// The names of what is drawn, in the corner that is mostly free.
pub fn legend<'a, 'b: 'a, X, Y>(chart: &mut ChartContext<'a, SVGBackend<'b>, Cartesian2d<X, Y>>) -> Drawn
where
    X: Ranged<ValueType = f64>,
    Y: Ranged<ValueType = f64>,
{
    chart
        .configure_series_labels()
        .position(SeriesLabelPosition::UpperMiddle)
        .background_style(WHITE.mix(0.8))
        .border_style(INK.mix(0.3))
        .draw()?;
    Ok(())
}
