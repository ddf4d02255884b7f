//! `picture`: what is certified, as an SVG image.
//!
//! Every bracket that is drawn is the library's answer at one level and one mixture; nothing is drawn between two of them. The
//! levels are built, so that their vectors cover all states and count at every mixture.

mod colours;
mod levels;
mod line;
mod triangle;

use crate::building::{fitting, joined, progress, Building};
use crate::stop::Stop;
use biidhaqun::{Bracket, Ceiling, Certifier, Mixture, Units};
use colours::WHITE;
use command::files;
use command::options::{Built, Weights};
use plotters::coord::Shift;
use plotters::prelude::{DrawingArea, IntoDrawingArea, SVGBackend};
use std::error::Error;
use std::path::Path;
use std::slice;

/// The size of a panel.
const WIDTH: u32 = 520;
const HEIGHT: u32 = 420;

/// Where a panel is drawn.
pub type Area<'a> = DrawingArea<SVGBackend<'a>, Shift>;
/// Drawing on text does not fail but by an error of ours.
pub type Drawn = Result<(), Box<dyn Error>>;

/// What is certified at one mixture: in units of reward, both ceilings apart, and the action.
#[derive(Clone, Copy)]
pub struct Sample {
    bracket: Bracket,
    sawtooth: Units,
    informed: Units,
    action: usize,
}

impl Sample {
    fn floor(&self) -> f64 {
        self.bracket.floor.into()
    }

    /// The lower of both ceilings.
    fn ceiling(&self) -> f64 {
        self.bracket.ceiling.into()
    }

    fn sawtooth(&self) -> f64 {
        self.sawtooth.into()
    }

    fn informed(&self) -> f64 {
        self.informed.into()
    }

    fn gap(&self) -> f64 {
        self.ceiling() - self.floor()
    }
}

pub fn run(built: &Built, at: Option<&Weights>, out: &Path) -> Result<(), Stop> {
    let building = Building::of(built, &[])?;
    let asked = fitting("--at", at.map(slice::from_ref).unwrap_or_default(), building.model.shape().states)?;
    let mixture = asked.first().unwrap_or(&building.start);
    let mut over_levels = Vec::new();
    let certifier = building.climb(|certifier| {
        over_levels.push(sample(&building, certifier, mixture)?);
        Ok(())
    })?;
    let over_mixtures = sampled(&building, &certifier)?;
    let mut image = String::new();
    draw(&mut image, &building, mixture, &over_levels, &over_mixtures)
        .map_err(|error| Stop::Ours(format!("the picture cannot be drawn ({})", error)))?;
    files::write(out, image.as_bytes()).map_err(Stop::File)
}

fn sample(building: &Building, certifier: &Certifier, mixture: &Mixture) -> Result<Sample, Stop> {
    let totals = building.totals(certifier, mixture)?;
    let ceiling = |of| totals.ceiling(of, mixture);
    Ok(Sample {
        bracket: totals.bracket(mixture),
        sawtooth: ceiling(Ceiling::Sawtooth),
        informed: ceiling(Ceiling::Informed),
        action: totals.action,
    })
}

/// Samples over all mixtures, where there are two or three states.
fn sampled(building: &Building, certifier: &Certifier) -> Result<Vec<(Mixture, Sample)>, Stop> {
    let mixtures = match building.model.shape().states {
        2 => line::mixtures(),
        3 => triangle::mixtures(),
        _ => Vec::new(),
    };
    let bar = progress(mixtures.len() as u64, "mixtures");
    let one = |mixture: Mixture| {
        bar.inc(1);
        let sample = sample(building, certifier, &mixture)?;
        Ok((mixture, sample))
    };
    mixtures.into_iter().map(one).collect()
}

/// Weights for a title: the first ones, where they have more letters than it has room for.
fn shortened(weights: &[u32]) -> String {
    const ROOM: usize = 40;
    let all = joined(weights);
    match all.get(..ROOM).and_then(|first| first.rfind(',')) {
        Some(end) if all.len() > ROOM => format!("{},..", &all[..end]),
        _ => all,
    }
}

fn draw(
    image: &mut String,
    building: &Building,
    mixture: &Mixture,
    over_levels: &[Sample],
    over_mixtures: &[(Mixture, Sample)],
) -> Drawn {
    let panels = if over_mixtures.is_empty() { 1 } else { 2 };
    let root = SVGBackend::with_string(image, (WIDTH * panels, HEIGHT)).into_drawing_area();
    root.fill(&WHITE)?;
    let (left, right) = root.split_horizontally(WIDTH);
    levels::draw(&left, &format!("at {}", shortened(&mixture.weights)), over_levels, &building.named)?;
    let title = format!("level {}, all mixtures", building.levels);
    match building.model.shape().states {
        2 => line::draw(&right, &title, over_mixtures, &building.named)?,
        3 => triangle::draw(&right, &title, over_mixtures, &building.named)?,
        _ => {}
    }
    root.present()?;
    Ok(())
}

#[cfg(test)]
mod tests {
    use super::*;

    #[test]
    fn titles_are_cut_by_letters() {
        assert_eq!(shortened(&[1; 20]), joined(&[1; 20]));
        assert_eq!(shortened(&[1; 64]), format!("{},..", joined(&[1; 20])));
        assert_eq!(shortened(&[1_000_000; 16]), format!("{},..", joined(&[1_000_000; 5])));
    }
}
