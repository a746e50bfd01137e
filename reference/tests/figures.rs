//! Host end: figures of speed and slope.

mod common;
use common::{accept, on};
use reference::figures::{command_of, machine_figures, slope_figure, speed_figure, Setting};
use reference::{figures_of, Command, Figures};

#[test]
fn every_speed_figure() {
    for n in 1..=1_000_000 {
        assert_eq!(command_of(Setting::Speed(speed_figure(n))), Ok(Command::Speed(n)));
    }
    assert_eq!(speed_figure(10_000), 2_500.0);
    assert_eq!(speed_figure(1), 0.25);
}

#[test]
fn every_slope_figure() {
    for n in 1..=4_095 {
        assert_eq!(command_of(Setting::Slope(slope_figure(n))), Ok(Command::Slope(n)));
    }
    assert_eq!(slope_figure(16), 20.0);
    assert_eq!(slope_figure(4_095), 5_118.75);
}

/// Figures that are turned away as this setting.
fn turned_away(setting: fn(f64) -> Setting, figures: &[f64]) {
    for &figure in figures {
        assert_eq!(command_of(setting(figure)), Err(21), "{figure}");
    }
}

/// The figures just below and just above each of these are turned away as this setting.
fn neighbours_turned_away(setting: fn(f64) -> Setting, figures: &[f64]) {
    for figure in figures {
        turned_away(setting, &[f64::from_bits(figure.to_bits() - 1), f64::from_bits(figure.to_bits() + 1)]);
    }
}

#[test]
fn figures_turned_away() {
    turned_away(Setting::Speed, &[0.0, -0.0, -0.25, 0.2, 0.125, 250_000.25, 250_000.125, 1e300]);
    turned_away(Setting::Slope, &[0.0, -0.0, -1.25, 1.0, 0.25, 5.0 / 3.0, 5_120.0, 1e300]);
    neighbours_turned_away(Setting::Speed, &[0.25, 2_500.0, 250_000.0]);
    neighbours_turned_away(Setting::Slope, &[1.25, 20.0, 5_118.75]);
    let ends = [f64::MIN_POSITIVE, f64::from_bits(1), f64::MAX, f64::NAN, f64::INFINITY, f64::NEG_INFINITY];
    turned_away(Setting::Speed, &ends);
    turned_away(Setting::Slope, &ends);
}

#[test]
fn pair_of_figures() {
    let mut machine = on();
    assert_eq!(machine_figures(&machine), Figures { speed: 2_500.0, slope: 20.0 });
    accept(&mut machine, &["P08F4240", "P0900FFF"]);
    assert_eq!(machine_figures(&machine), Figures { speed: 250_000.0, slope: 5_118.75 });
    assert_eq!(figures_of(1, 1), Figures { speed: 0.25, slope: 1.25 });
}
