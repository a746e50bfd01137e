//! Stored vectors, B: the blocks that answer a carry-on, U with 26 and S with code C, and their nearest non-blocks.

use crate::text::Text;

/// Replies: every switch digit, C among them.
fn every_switch() -> impl Iterator<Item = char> {
    "0123456789ABCDEF".chars()
}

/// Paper 02, 6/14: what answers a carry-on, and what is near it.
pub(super) fn blocks(text: &mut Text) {
    text.heading("reader: U, 26 and the numbers about it, which no line has, without and with identification");
    for number in 0x12..=0x21 {
        text.block_both(&format!("U5{number:06X}"));
    }
    for near in ["U000011A", "U010001A", "U0A00000", "U00001A0", "U000001a", "U00001A", "u000001A", "S000001A"] {
        text.block_both(near);
    }
    text.heading("reader: U with 26 and S with code C, every switch digit and every identification");
    for switch in every_switch() {
        text.block(&format!("U{switch}00001A"));
        text.block(&format!("S{switch}C00000"));
        text.block(&format!("U000001A{switch}"));
        text.block(&format!("S0C12300{switch}"));
    }
    for identification in ["a", "f", "G", "/", ":", "@", " "] {
        text.block(&format!("U000001A{identification}"));
        text.block(&format!("S0C00000{identification}"));
    }
    text.heading("reader: S with code C and any digits; the codes about it, small letters");
    for five in ["00001", "0000F", "10000", "80000", "7FFFF", "ABCDE", "FFFFE"] {
        text.block_both(&format!("S9C{five}"));
    }
    for near in ["S0CABCDe", "S0c00000", "s0C00000", "R0C00000", "S0C0000", "S0C0000000", "S0F12300", "S0712300"] {
        text.block_both(near);
    }
}
