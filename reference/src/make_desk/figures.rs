//! From words: speeds and slopes, exact, inexact, out of range and malformed.

use super::lines::Lines;

/// From words: speeds that are so many quarters of a hertz, and their nearest neighbours. The long ones are whole
/// quarters to whoever reads them as f64, and those over 1,000,000,000 to whoever counts in 32 or 64 bits.
const SPEEDS: [&str; 30] = [
    "0.25",
    "0.5",
    "0.75",
    "1",
    "1.0",
    "2500",
    "249999.75",
    "250000",
    "250000.00",
    "000250000.000",
    "0.2500000000000000000000000000",
    "0000000000000000000000000000000000000001.50",
    "0",
    "0.0",
    "-0",
    "-0.25",
    "-2500.25",
    "250000.25",
    "1000000",
    "4294967296",
    "1073741824.25",
    "4611686018427387904.25",
    "18446744073709551616.25",
    "0.1",
    "0.26",
    "0.249999999999999999999999999999",
    "0.250000000000000000000000000001",
    "250000.000000000000000000000001",
    "0.025",
    "1.125",
];

/// From words: slopes that are so many five quarters of a hertz per ms, and their nearest neighbours.
const SLOPES: [&str; 23] = [
    "1.25",
    "2.5",
    "3.75",
    "5",
    "6.25",
    "5117.5",
    "5118.75",
    "0005118.7500",
    "5120",
    "5118.5",
    "0",
    "-0",
    "-1.25",
    "1",
    "1.5",
    "0.25",
    "1.2",
    "1.24999999999999999999999999999",
    "1.25000000000000000000000000001",
    "1073741825.25",
    "4611686018427387905.25",
    "4294967296.25",
    "99999999999999999999999999999999",
];

/// From words: what is no figure.
const NO_FIGURES: [&str; 21] = [
    "", ".", "-", "-.", ".5", "5.", "-.5", "-5.", "+5", "--5", "5-", "1e3", "1..5", "1.-5", "2,500", "A", "1.A", "inf",
    "NaN", "5 Hz", "5 0",
];

/// From words: speeds and slopes.
pub(super) fn figures(lines: &mut Lines) {
    lines.behind("speed", &SPEEDS);
    lines.behind("slope", &SLOPES);
    lines.behind("speed", &NO_FIGURES);
    lines.behind("slope", &NO_FIGURES[..6]);
    lines.each(&["speed", "slope", "speed 2500.25 as A", "silent slope 1250 as 0", "silent speed 0.3", "slope 1 as F"]);
    lines.each(&["speed 0.3 as z", "slope 1 as z", "speed 5 as z", "speed x as z"]);
}
