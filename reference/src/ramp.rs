//! Ramp.

/// Ramp: phase at which the master pulses.
pub const PULSE_PHASE: u64 = 50_000_000;

/// Ramp: fiftieths of a unit of the speed setting.
pub const FIFTIETHS: u64 = 50;

/// Ramp: what one tick of a running move gives.
#[derive(Clone, Copy, Debug, PartialEq, Eq)]
pub enum RampTick {
    /// The move ends without a pulse.
    Ended,
    /// The move goes on with this speed and phase; `pulse` tells whether the master pulses.
    Going { speed: u64, phase: u64, pulse: bool },
}

/// Ramp: R = (M - m) × 50,000,000 - phase.
pub fn remaining(master_distance: u32, m: u32, phase: u64) -> u64 {
    (master_distance - m) as u64 * PULSE_PHASE - phase
}

/// Ramp: u falls by a but not below a, and stays where it is at or below a.
pub fn slow_down(u: u64, a: u64) -> u64 {
    if u <= a {
        u
    } else if u - a < a {
        a
    } else {
        u - a
    }
}

/// Ramp: u goes towards the wanted speed by at most a.
pub fn approach(u: u64, wanted: u64, a: u64) -> u64 {
    if u < wanted {
        if wanted - u <= a {
            wanted
        } else {
            u + a
        }
    } else if u - wanted <= a {
        wanted
    } else {
        u - a
    }
}

/// Ramp: the speed of a tick that is not stopping.
pub fn running_speed(u: u64, a: u64, speed_setting: u32, r: u64) -> u64 {
    if u * u >= 2 * a * r {
        slow_down(u, a)
    } else {
        approach(u, FIFTIETHS * speed_setting as u64, a)
    }
}

/// Ramp: phase grows by u; at 50,000,000 or more it loses 50,000,000 and the master pulses.
pub fn advance(u: u64, phase: u64) -> RampTick {
    let grown = phase + u;
    if grown >= PULSE_PHASE {
        RampTick::Going { speed: u, phase: grown - PULSE_PHASE, pulse: true }
    } else {
        RampTick::Going { speed: u, phase: grown, pulse: false }
    }
}

/// Ramp: each tick of a move that is stopping.
pub fn stopping_tick(u: u64, phase: u64, slope: u32) -> RampTick {
    let a = slope as u64;
    if u <= a {
        RampTick::Ended
    } else {
        advance(u - a, phase)
    }
}

/// Ramp: each tick of a move that is not stopping.
pub fn running_tick(u: u64, phase: u64, slope: u32, speed_setting: u32, master_distance: u32, m: u32) -> RampTick {
    let r = remaining(master_distance, m, phase);
    advance(running_speed(u, slope as u64, speed_setting, r), phase)
}
