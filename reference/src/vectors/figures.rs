//! Stored vectors, F, U, D and G: figures read back, figures of units, every setting, the pair of figures.

use super::answer_text;
use super::kind::Kind;
use crate::command::{Command, CommandValue};
use crate::digest::mix;
use crate::fields::{digits, eight_digits};
use crate::figures::{command_of, machine_figures, Figures, Setting};
use crate::host::line_text;
use crate::line::with_line_end;
use crate::machine::{Machine, LEAST_REPLY_BUFFER};

/// Stored vectors, F: the largest whole number m, 2 to the 53.
pub const LARGEST_WHOLE: u64 = 1 << 53;

/// Stored vectors, F: m × 2 to the e as f64, made by doubling or halving step by step.
fn scaled(m: u64, exponent: i32) -> f64 {
    let mut figure = m as f64;
    for _ in 0..exponent.abs() {
        figure = if exponent > 0 { figure * 2.0 } else { figure / 2.0 };
    }
    figure
}

/// Stored vectors, F: sign `+`, `-`, or `N` for not a number.
fn signed(sign: &[u8], magnitude: f64) -> Option<f64> {
    match sign {
        b"+" => Some(magnitude),
        b"-" => Some(-magnitude),
        b"N" => Some(f64::NAN),
        _ => None,
    }
}

/// Stored vectors, F: the figure of a line; an m above 2 to the 53 has none.
fn figure_of_fields(sign: &[u8], m: &[u8], exponent: &[u8]) -> Option<f64> {
    let m = digits(m, 14).filter(|&m| m <= LARGEST_WHOLE)?;
    let exponent = digits(exponent, 3)? as i32 - 2_048;
    signed(sign, scaled(m, exponent))
}

/// Stored vectors, F: the number and the units that are read back.
fn units_text(kind: Kind, figure: f64) -> String {
    answer_text(kind.units(figure).map(|n| format!("{n:06X}")))
}

/// Stored vectors, F: the writer's line (reply, no identification) without its 0D.
fn line_of_command(command: Command) -> Result<String, u8> {
    line_text(&CommandValue { command, silent: false, identification: None })
}

/// Stored vectors, F: the number and the P command of the setting.
fn setting_text(setting: Setting) -> String {
    answer_text(command_of(setting).and_then(line_of_command))
}

/// Stored vectors, F: a figure read back.
pub(super) fn figure_line(kind: &[u8], sign: &[u8], m: &[u8], exponent: &[u8]) -> Option<String> {
    let kind = Kind::of(kind)?;
    let figure = figure_of_fields(sign, m, exponent)?;
    Some(format!("{} {}\n", units_text(kind, figure), setting_text(kind.setting(figure))))
}

/// Stored vectors, U: 4 times the figure, a whole number, and whether it is exactly that.
fn four_times(figure: f64) -> (u64, bool) {
    let whole = (figure * 4.0) as u64;
    (whole, whole as f64 / 4.0 == figure)
}

/// Stored vectors, U: a figure as `hhhhhhhhhhhhhhhh =`, with `~` where it is not exactly that.
fn figure_text(figure: f64) -> String {
    let (whole, exact) = four_times(figure);
    format!("{whole:016X} {}", if exact { '=' } else { '~' })
}

/// Stored vectors, U: the figure of n units, for any n of 32 bits.
pub(super) fn units_line(kind: &[u8], n: &[u8]) -> Option<String> {
    let figure = Kind::of(kind)?.figure(eight_digits(n)?);
    Some(format!("{}\n", figure_text(figure)))
}

/// Stored vectors, D: a figure is read back and mixed in after x.
fn mix_read_back(digest: u32, x: u32, kind: Kind, figure: f64) -> u32 {
    match kind.units(figure) {
        Ok(n) => mix(digest, x, n, 0),
        Err(number) => mix(digest, x, 0, number as u32),
    }
}

/// Stored vectors, D: one n, its figure and the figure times 1.0000000000000002.
fn mix_units(digest: u32, kind: Kind, n: u32) -> u32 {
    let figure = kind.figure(n);
    let digest = mix_read_back(digest, four_times(figure).0 as u32, kind, figure);
    mix_read_back(digest, 0, kind, figure * 1.0000000000000002)
}

/// Stored vectors, D: every n from 1 to the largest setting, and one more.
pub(super) fn digest_line(kind: &[u8]) -> Option<String> {
    let kind = Kind::of(kind)?;
    let digest = (1..=kind.largest() + 1).fold(0, |digest, n| mix_units(digest, kind, n));
    Some(format!("{digest:08X}\n"))
}

/// Stored vectors, G: one line goes in, whatever it answers.
fn send_line(machine: &mut Machine, text: &[u8]) {
    let mut buf = [0; LEAST_REPLY_BUFFER];
    for byte in with_line_end(text) {
        machine.byte(byte, &mut buf);
    }
}

/// Stored vectors, G: the pair of figures after P 8 and P 9 with these digits.
fn pair_of_figures(speed: &[u8], slope: &[u8]) -> Figures {
    let (mut machine, _) = Machine::power_on(0);
    send_line(&mut machine, &[b"P08", speed].concat());
    send_line(&mut machine, &[b"P09", slope].concat());
    machine_figures(&machine)
}

/// Stored vectors, G: `G hhhhh hhhhh`, both figures as `U` prints them.
pub(super) fn pair_line(speed: &[u8], slope: &[u8]) -> Option<String> {
    digits(speed, 5).and(digits(slope, 5))?;
    let pair = pair_of_figures(speed, slope);
    Some(format!("{} {}\n", figure_text(pair.speed), figure_text(pair.slope)))
}
