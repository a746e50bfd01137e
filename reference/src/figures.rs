//! Host end: bench figures in f64.

use crate::command::{in_range, Command, SLOPES, SPEEDS};
use crate::machine::Machine;
use std::ops::RangeInclusive;

/// Host end: a setting is a speed in hertz or a slope in hertz per ms.
#[derive(Clone, Copy, Debug, PartialEq)]
pub enum Setting {
    Speed(f64),
    Slope(f64),
}

/// Host end: a pair of figures shows speed (hertz) and slope (hertz per ms) together.
#[derive(Clone, Copy, Debug, PartialEq)]
pub struct Figures {
    pub speed: f64,
    pub slope: f64,
}

/// Host end: n units of speed are exactly n/4 hertz.
pub fn speed_figure(n: u32) -> f64 {
    n as f64 / 4.0
}

/// Host end: n units of slope are exactly 5n/4 hertz per ms.
pub fn slope_figure(n: u32) -> f64 {
    5.0 * n as f64 / 4.0
}

/// Host end: the pair of figures of given settings.
pub fn figures_of(speed: u32, slope: u32) -> Figures {
    Figures { speed: speed_figure(speed), slope: slope_figure(slope) }
}

/// Host end: the pair of figures of the controller's settings.
pub fn machine_figures(machine: &Machine) -> Figures {
    figures_of(machine.speed(), machine.slope())
}

/// Turned away, 21: n units are in range, and their figure is exactly the given one.
fn exact_units(n: u32, range: RangeInclusive<u32>, exact: f64, figure: f64) -> Result<u32, u8> {
    if exact != figure {
        return Err(21);
    }
    in_range(n, range, 21)
}

/// Turned away, 21: a speed figure that is not exactly n/4 for an n of 1 to 1,000,000.
pub fn speed_units(figure: f64) -> Result<u32, u8> {
    let n = (figure * 4.0).round() as u32;
    exact_units(n, SPEEDS, speed_figure(n), figure)
}

/// Turned away, 21: a slope figure that is not exactly 5n/4 for an n of 1 to 4,095.
pub fn slope_units(figure: f64) -> Result<u32, u8> {
    let n = (figure * 4.0 / 5.0).round() as u32;
    exact_units(n, SLOPES, slope_figure(n), figure)
}

/// Host end: a setting becomes its P command or refusal 21.
pub fn command_of(setting: Setting) -> Result<Command, u8> {
    match setting {
        Setting::Speed(figure) => Ok(Command::Speed(speed_units(figure)?)),
        Setting::Slope(figure) => Ok(Command::Slope(slope_units(figure)?)),
    }
}
