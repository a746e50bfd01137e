//! Lines and replies: six digits that are a code and five digits, and the figures that the five hold.

/// Lines and replies: the top bit of the five digits is minus.
pub const MINUS_BIT: u32 = 0x80000;

/// Replies: a code followed by a 20-bit figure.
pub fn coded(code: u8, five: u32) -> u32 {
    ((code as u32) << 20) | (five & 0xFFFFF)
}

/// Replies: the code and the five digits after it.
pub fn code_and_five(value: u32) -> (u8, u32) {
    ((value >> 20) as u8, value & 0xFFFFF)
}

/// Lines and replies: the minus bit with a distance, or with the latest move's travel.
pub fn travel_digits(minus: bool, travel: u32) -> u32 {
    if minus {
        MINUS_BIT | travel
    } else {
        travel
    }
}

/// Lines and replies: the minus bit, and the distance or travel beside it.
pub fn minus_and_travel(five: u32) -> (bool, u32) {
    (five & MINUS_BIT != 0, five & (MINUS_BIT - 1))
}

/// Replies: position in 20-bit two's complement.
pub fn position_digits(position: i32) -> u32 {
    (position as u32) & 0xFFFFF
}

/// Replies: the position of 20-bit two's complement.
pub fn position_of(five: u32) -> i32 {
    if five & MINUS_BIT != 0 {
        five as i32 - 0x100000
    } else {
        five as i32
    }
}
