//! Bits of the status and of the input word.

use reference::inputs::{EMERGENCY_BIT, SENSOR_BIT};

/// Status bit 0: a move or a dwell runs.
pub const BUSY: u32 = 1 << 0;
/// Status bit 1: a move runs.
pub const MOVING: u32 = 1 << 1;
/// Status bit 2: a start named a wrong master.
pub const WRONG_MASTER: u32 = 1 << 2;
/// Status bit 3: stopped by order, limit or watch.
pub const STOPPED: u32 = 1 << 3;
/// Status bit 4: an axis is blocked.
pub const BLOCKED: u32 = 1 << 4;
/// Status bit 5: emergency is held.
pub const HELD: u32 = 1 << 5;
/// Status bit 6: stopped by the sensor.
pub const BY_SENSOR: u32 = 1 << 6;

/// Whether a dwell runs, by the status.
pub fn in_dwell(status: u32) -> bool {
    status & (BUSY | MOVING) == BUSY
}

/// Input bits of all ten limits.
pub const LIMITS: u32 = 0x3FF;
/// Input bit of the emergency.
pub const EMERGENCY: u32 = 1 << EMERGENCY_BIT;
/// Input bit of the sensor.
pub const SENSOR: u32 = 1 << SENSOR_BIT;
