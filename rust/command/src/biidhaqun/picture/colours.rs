//! Colours: eight for actions, which also those tell apart who see few, and a scale from light to dark.

use plotters::style::{RGBColor, ShapeStyle};

pub const WHITE: RGBColor = RGBColor(255, 255, 255);
pub const INK: RGBColor = RGBColor(40, 40, 40);

pub const FLOOR: RGBColor = RGBColor(0, 70, 140);
pub const SAWTOOTH: RGBColor = RGBColor(180, 50, 0);
pub const INFORMED: RGBColor = RGBColor(110, 30, 130);

/// After Okabe and Ito.
const ACTIONS: [RGBColor; 8] = [
    RGBColor(86, 180, 233),
    RGBColor(230, 159, 0),
    RGBColor(0, 158, 115),
    RGBColor(204, 121, 167),
    RGBColor(240, 228, 66),
    RGBColor(0, 114, 178),
    RGBColor(213, 94, 0),
    RGBColor(120, 120, 120),
];

/// The colour of an action.
pub fn action(number: usize) -> RGBColor {
    ACTIONS[number % ACTIONS.len()]
}

/// A share from 0 (light) to 1 (dark).
pub fn scale(share: f64) -> RGBColor {
    let mix = |light: u8, dark: u8| (f64::from(light) + share * (f64::from(dark) - f64::from(light))).round() as u8;
    RGBColor(mix(240, 8), mix(246, 48), mix(252, 107))
}

/// Filled, without an edge.
pub fn filled(colour: RGBColor) -> ShapeStyle {
    ShapeStyle { color: colour.into(), filled: true, stroke_width: 0 }
}

/// A line of this width.
pub fn line(colour: RGBColor, width: u32) -> ShapeStyle {
    ShapeStyle { color: colour.into(), filled: false, stroke_width: width }
}
