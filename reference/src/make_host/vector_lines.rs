//! Stored vectors: the lines of the text, letter by letter.

use crate::fields::bytes_text;
use crate::line::with_line_end;
use crate::text::Text;

impl Text {
    /// Stored vectors, W: a writer's line.
    pub(super) fn writer(&mut self, length: u8, silent: u8, figures: (u8, u8, u8, u32), identification: &str) {
        let (command, axis, flag, value) = figures;
        let line = format!("W {length:02X} {silent} {command:02X} {axis:02X} {flag} {value:08X} {identification}");
        self.plain(&line);
    }

    /// Stored vectors, W: a command with a buffer of 10 bytes, replied and silent, no identification.
    pub(super) fn both_ways(&mut self, command: u8, axis: u8, flag: u8, value: u32) {
        self.writer(0x0A, 0, (command, axis, flag, value), "--");
        self.writer(0x0A, 1, (command, axis, flag, value), "--");
    }

    /// Stored vectors, W: a command that uses its value alone, with each of these.
    pub(super) fn values(&mut self, command: u8, values: &[u32]) {
        for &value in values {
            self.both_ways(command, 0, 0, value);
        }
    }

    /// Stored vectors, B: a reader's line of these bytes.
    pub(super) fn reader(&mut self, bytes: &[u8]) {
        self.plain(&format!("B {}", bytes_text(bytes)));
    }

    /// Stored vectors, B: a reader's line of a text with its 0D.
    pub(super) fn block(&mut self, text: &str) {
        self.reader(&with_line_end(text.as_bytes()).collect::<Vec<u8>>());
    }

    /// Stored vectors, B: a block without and with an identification.
    pub(super) fn block_both(&mut self, text: &str) {
        self.block(text);
        self.block(&format!("{text}B"));
    }

    /// Stored vectors, M: a picker's line.
    pub(super) fn picker(&mut self, distances: [u32; 5]) {
        let fields: Vec<String> = distances.iter().map(|distance| format!("{distance:08X}")).collect();
        self.plain(&format!("M {}", fields.join(" ")));
    }

    /// Stored vectors, F: m × 2 to the e, of both kinds.
    pub(super) fn figure(&mut self, sign: char, m: u64, exponent: i32) {
        for kind in ['V', 'A'] {
            self.plain(&format!("F {kind} {sign} {m:014X} {:03X}", exponent + 2_048));
        }
    }

    /// Stored vectors, F: each m × 2 to the e of these, with one sign.
    pub(super) fn figures(&mut self, sign: char, pairs: &[(u64, i32)]) {
        for &(m, exponent) in pairs {
            self.figure(sign, m, exponent);
        }
    }

    /// Stored vectors, F: each of these whole numbers of quarters.
    pub(super) fn quarters(&mut self, quarters: &[u64]) {
        for &m in quarters {
            self.figure('+', m, -2);
        }
    }

    /// Stored vectors, F: a positive f64 written with all 53 bits of m.
    pub(super) fn whole_figure(&mut self, figure: f64) {
        let bits = figure.to_bits();
        let m = (bits & ((1 << 52) - 1)) | (1 << 52);
        self.figure('+', m, (bits >> 52) as i32 - 1_075);
    }

    /// Stored vectors, F: each figure with the one just below and the one just above.
    pub(super) fn neighbours(&mut self, figures: &[f64]) {
        for figure in figures {
            for bits in [figure.to_bits() - 1, figure.to_bits(), figure.to_bits() + 1] {
                self.whole_figure(f64::from_bits(bits));
            }
        }
    }

    /// Stored vectors, U: each n units of both kinds.
    pub(super) fn units(&mut self, units: &[u32]) {
        for n in units {
            for kind in ['V', 'A'] {
                self.plain(&format!("U {kind} {n:08X}"));
            }
        }
    }
}
