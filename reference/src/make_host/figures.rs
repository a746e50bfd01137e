//! Stored vectors, F, U, D and G: figures that are exact, those turned away by 21, units and pairs.

use crate::text::Text;

/// Host end: figures that are exact, and the first that are refused on each side.
pub(super) fn exact_figures(text: &mut Text) {
    text.heading("figures: quarters of a small whole number, read as speed and as slope");
    text.quarters(&[0, 1, 2, 3, 4, 5, 6, 10, 15, 20, 25, 64, 80, 100]);
    text.heading("figures: largest speed 250,000.0 and largest slope 5,118.75, and the next on each side");
    text.quarters(&[999_999, 1_000_000, 1_000_001, 1_000_005, 1_048_576]);
    text.quarters(&[20_470, 20_474, 20_475, 20_476, 20_480, 20_485]);
    text.heading("figures: slopes that are multiples of 0.25 but not of 1.25");
    text.quarters(&[1, 2, 3, 4, 6, 7, 8, 9, 11, 20_471, 20_472, 20_473, 20_479]);
    text.heading("figures: the same value in other pairs of m and exponent");
    text.figures('+', &[(1, 0), (2, -1), (4, -2), (1 << 52, -52), (1 << 53, -53), (1 << 53, -55), (5, 0), (5, 1)]);
    text.figures('+', &[(15_625, 4), (31_250, 3), (1, 17), (1, 18), (4_095, 0), (1_000_000, 0), (1_000_000, -3)]);
}

/// Turned away, 21: figures that are not exact or out of range.
pub(super) fn inexact_figures(text: &mut Text) {
    text.heading("figures: zero of both signs, negatives, not a number, both infinities");
    for sign in ['+', '-', 'N'] {
        text.figures(sign, &[(0, 0), (0, 2_047), (0, -2_048), (1, -2), (5, -2), (10_000, -2), (1_000_000, -2)]);
        text.figures(sign, &[(1, 1_023), (1, 1_024), (1, 2_047), (1 << 53, 970), (1 << 53, 971), (1 << 53, 2_047)]);
    }
    text.heading("figures: just below, at and just above exact ones");
    text.neighbours(&[0.25, 0.5, 1.0, 1.25, 2.5, 20.0, 100.0, 2_500.0, 4_096.0, 5_118.75, 131_072.0, 249_999.75]);
    text.neighbours(&[250_000.0, 250_000.25, 5_120.0, 3.75, 1_280.0, 65_536.25]);
    text.heading("figures: parts smaller than a quarter");
    text.figures('+', &[(1, -3), (3, -3), (7, -3), (1, -4), (79_999, -3), (1_999_999, -3), (2_000_001, -3)]);
    text.heading("figures: a tenth, a third, two thirds and the like, as near as f64 has them");
    for figure in [0.1, 0.2, 0.3, 1.0 / 3.0, 2.0 / 3.0, 5.0 / 3.0, 1.1, 1.25 * 1.1, 3.75 / 1.1, 2_499.9, 5_118.7] {
        text.whole_figure(figure);
    }
    smallest_and_large_figures(text);
}

/// Turned away, 21: figures at the ends of f64, and whole numbers past those of 32 bits.
fn smallest_and_large_figures(text: &mut Text) {
    text.heading("figures: the smallest ones, and halving past them");
    text.figures('+', &[(1, -1_022), (1, -1_073), (1, -1_074), (1, -1_075), (3, -1_075), (1, -2_048)]);
    text.figures('+', &[((1 << 53) - 1, -1_074), ((1 << 53) - 1, -1_127), (1 << 53, -1_128), (1 << 53, -2_048)]);
    text.heading("figures: large whole numbers, where doubled units do not fit 32 bits");
    text.figures('+', &[(1 << 53, 0), ((1 << 53) - 1, 0), (1, 30), (1, 31), (1, 32), (1, 52), (1, 62), (1, 64)]);
    text.quarters(&[(1 << 32) + 1, (1 << 32) + 4, (1 << 32) + 5, (1 << 32) + 1_000_000, (5 << 32) + 5, (5 << 32) + 20]);
}

/// Host end: figures of units, every setting, the pair of figures.
pub(super) fn units_and_pairs(text: &mut Text) {
    text.heading("units: any n of 32 bits");
    text.units(&[0, 1, 2, 3, 4, 5, 16, 4_094, 4_095, 4_096, 10_000, 999_999, 1_000_000, 1_000_001]);
    text.units(&[0x00FF_FFFF, 0x0100_0001, 0x3333_3333, 0x7FFF_FFFF, 0x8000_0000, 0xCCCC_CCCD]);
    text.units(&[0xFFFF_FFFE, u32::MAX]);
    text.heading("units: every setting, there and back");
    text.plain("D V");
    text.plain("D A");
    text.heading("pairs: power-on settings where a line is refused, least, greatest, others");
    for speed in [0x00000, 0x00001, 0x02710, 0x12345, 0xF423F, 0xF4240, 0xF4241, 0xFFFFF] {
        for slope in [0x00000, 0x00001, 0x00010, 0x00FFE, 0x00FFF, 0x01000, 0x10001, 0xFFFFF] {
            text.plain(&format!("G {speed:05X} {slope:05X}"));
        }
    }
}
