//! Three states: the gap below the lower ceiling, over the triangle of all mixtures.

use super::colours::{filled, line, scale, INK};
use super::levels::short;
use super::{Area, Drawn, Sample};
use biidhaqun::Mixture;
use command::names::Named;
use plotters::prelude::{ChartBuilder, PathElement, Polygon, Rectangle, Text};
use plotters::style::text_anchor::{HPos, Pos, VPos};
use plotters::style::{IntoFont, TextStyle};

/// How many parts a side of the triangle is sampled in.
const PARTS: u32 = 48;
/// The height of a triangle whose sides are 1.
const TALL: f64 = 0.866_025_403_784;

pub fn mixtures() -> Vec<Mixture> {
    let weights = |top: u32| (0..=PARTS - top).map(move |right| Mixture::new(&[PARTS - top - right, right, top]));
    (0..=PARTS).flat_map(weights).collect()
}

/// Where a mixture stands: state 0 at the left, 1 at the right, 2 at the top.
fn place(weights: &[u32]) -> (f64, f64) {
    let share = |state: usize| weights[state] as f64 / PARTS as f64;
    (share(1) + 0.5 * share(2), TALL * share(2))
}

pub fn draw(area: &Area, title: &str, samples: &[(Mixture, Sample)], named: &Named) -> Drawn {
    let (width, height) = area.dim_in_pixel();
    // One unit is as long in both directions.
    let wide = 1.55;
    let high = wide * f64::from(height - 60) / f64::from(width - 24);
    let mut chart = ChartBuilder::on(area)
        .caption(format!("{}: ceiling less floor", title), ("sans-serif", 18))
        .margin(12)
        .build_cartesian_2d(-0.14..wide - 0.14, -0.12..high - 0.12)?;
    let most = samples.iter().map(|(_, sample)| sample.gap()).fold(0.0, f64::max);
    let shade = |gap: f64| filled(scale(if most > 0.0 { gap / most } else { 0.0 }));
    // A sample's cell is a hexagon, somewhat larger than needed so that no lines are seen between cells.
    let radius = 1.3 / (PARTS as f64 * 3_f64.sqrt());
    let cells = samples.iter().map(|(mixture, sample)| {
        let (x, y) = place(&mixture.weights);
        let corner = |turn: u8| {
            let angle = (f64::from(turn) + 0.5) * std::f64::consts::FRAC_PI_3;
            (x + radius * angle.cos(), y + radius * angle.sin())
        };
        Polygon::new((0..6).map(corner).collect::<Vec<_>>(), shade(sample.gap()))
    });
    chart.draw_series(cells)?;

    let font = ("sans-serif", 14).into_font();
    let text = |horizontal: HPos, vertical: VPos| -> TextStyle {
        TextStyle::from(font.clone()).pos(Pos::new(horizontal, vertical))
    };
    let name = |state: usize| match named.states.get(state) {
        Some(name) => name.to_string(),
        None => format!("state {}", state),
    };
    let labels = [
        Text::new(name(0), (0.0, -0.04), text(HPos::Center, VPos::Top)),
        Text::new(name(1), (1.0, -0.04), text(HPos::Center, VPos::Top)),
        Text::new(name(2), (0.5, TALL + 0.04), text(HPos::Center, VPos::Bottom)),
    ];
    chart.draw_series(labels)?;

    // The scale at the right.
    const STEPS: usize = 60;
    let step = |at: usize| TALL * at as f64 / STEPS as f64;
    let bar = (0..STEPS).map(|at| {
        Rectangle::new([(1.08, step(at)), (1.13, step(at + 1))], shade(most * (at as f64 + 0.5) / STEPS as f64))
    });
    chart.draw_series(bar)?;
    let frame = [(1.08, 0.0), (1.13, 0.0), (1.13, TALL), (1.08, TALL), (1.08, 0.0)];
    chart.draw_series([PathElement::new(frame.to_vec(), line(INK, 1))])?;
    let marks = [0.0, 0.5, 1.0]
        .map(|share| Text::new(short(share * most), (1.15, TALL * share), text(HPos::Left, VPos::Center)));
    chart.draw_series(marks)?;
    Ok(())
}
