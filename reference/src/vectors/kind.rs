//! Stored vectors: the two kinds of a figure, speed and slope.

use crate::command::{FASTEST, STEEPEST};
use crate::figures::{slope_figure, slope_units, speed_figure, speed_units, Setting};

/// Stored vectors: kind `V` (speed in hertz) or `A` (slope in hertz per ms).
#[derive(Clone, Copy, Debug, PartialEq, Eq)]
pub(super) enum Kind {
    Speed,
    Slope,
}

impl Kind {
    /// Stored vectors: the kind of a field.
    pub(super) fn of(field: &[u8]) -> Option<Kind> {
        match field {
            b"V" => Some(Kind::Speed),
            b"A" => Some(Kind::Slope),
            _ => None,
        }
    }

    /// Host end: the figure of n units.
    pub(super) fn figure(self, n: u32) -> f64 {
        match self {
            Kind::Speed => speed_figure(n),
            Kind::Slope => slope_figure(n),
        }
    }

    /// Host end: the units of a figure, or 21.
    pub(super) fn units(self, figure: f64) -> Result<u32, u8> {
        match self {
            Kind::Speed => speed_units(figure),
            Kind::Slope => slope_units(figure),
        }
    }

    /// Host end: the setting of a figure.
    pub(super) fn setting(self, figure: f64) -> Setting {
        match self {
            Kind::Speed => Setting::Speed(figure),
            Kind::Slope => Setting::Slope(figure),
        }
    }

    /// Ramp: the largest setting.
    pub(super) fn largest(self) -> u32 {
        match self {
            Kind::Speed => FASTEST,
            Kind::Slope => STEEPEST,
        }
    }
}
