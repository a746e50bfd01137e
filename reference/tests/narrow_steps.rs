//! Paper 02, 4/14: steps and shares that are too narrow, and where they go wrong in the lists of the largest sums.

mod common;
use common::sums::{moves, whole_part};

/// One share advances at a master pulse: from remainder, distance and M to whether the axis pulses, and its remainder.
type Step = fn(u32, u32, u32) -> (bool, u32);

/// The travel of an axis from m, distance and M.
type Share = fn(u32, u32, u32) -> u32;

/// The axis pulses where the sum is M or more, and M is taken from it.
fn of_sum(sum: u32, master_distance: u32) -> (bool, u32) {
    if sum >= master_distance {
        (true, sum - master_distance)
    } else {
        (false, sum)
    }
}

/// The first master travel up to the last one sent at which an axis is not at the whole part of its share.
fn first_wrong(mut travel: impl FnMut(u32) -> u32, sent: u32, d: u32, master_distance: u32) -> Option<u32> {
    (1..=sent).find(|&m| travel(m) as u64 != whole_part(m as u64, d as u64, master_distance as u64))
}

/// The same of an axis that a step leads on, pulse by pulse.
fn first_wrong_step(step: Step, sent: u32, d: u32, master_distance: u32) -> Option<u32> {
    let (mut travel, mut remainder) = (0, 0);
    let led_on = |_| {
        let (pulse, next) = step(remainder, d, master_distance);
        remainder = next;
        travel += u32::from(pulse);
        travel
    };
    first_wrong(led_on, sent, d, master_distance)
}

/// Of each long move of the lists the first master travel at which some axis is wrong: six of 524,287 to their ends,
/// one of 524,286, and three that are stopped, after one pulse, two and 265,000.
fn wrong_moves(first_wrong: impl Fn(u32, u32, u32) -> Option<u32>) -> Vec<Option<u32>> {
    let mut wrong = Vec::new();
    for (ended, _) in moves() {
        let (sent, master_distance) = (ended.travels()[ended.master], ended.distances[ended.master]);
        if master_distance > 3 {
            wrong.push(ended.distances.iter().filter_map(|&d| first_wrong(sent, d, master_distance)).min());
        }
    }
    wrong
}

fn wrong_steps(step: Step) -> Vec<Option<u32>> {
    wrong_moves(|sent, d, master_distance| first_wrong_step(step, sent, d, master_distance))
}

fn wrong_shares(share: Share) -> Vec<Option<u32>> {
    wrong_moves(|sent, d, master_distance| first_wrong(|m| share(m, d, master_distance), sent, d, master_distance))
}

#[test]
fn a_whole_sum_leads_every_axis_along_its_share() {
    assert_eq!(wrong_steps(|remainder, d, master_distance| of_sum(remainder + d, master_distance)), [None; 10]);
}

/// Remainder, distance and M keep their width; only the sum loses its highest bit.
#[test]
fn a_sum_without_bit_19_is_wrong_at_the_second_pulse() {
    let step: Step = |remainder, d, master_distance| of_sum((remainder + d) & 0x7_FFFF, master_distance);
    let wrong = wrong_steps(step);
    assert_eq!(wrong[..7], [Some(2); 7]);
    // The stop after one pulse comes before the large sum.
    assert_eq!(wrong[7..], [None, Some(2), Some(2)]);
    let first = |d: u32| first_wrong_step(step, 524_287, d, 524_287);
    assert_eq!([524_286, 524_285, 262_144].map(first), [Some(2); 3]);
    assert_eq!([262_143, 100_000, 2].map(first), [Some(3), Some(6), Some(262_144)]);
    // Sums that stay below 524,288.
    assert_eq!([524_287, 1, 0].map(first), [None; 3]);
}

#[test]
fn a_step_of_16_bits_is_wrong_by_the_second_pulse() {
    let wrong = wrong_steps(|remainder, d, master_distance| of_sum((remainder + d) & 0xFFFF, master_distance & 0xFFFF));
    assert!(wrong.iter().all(|first| matches!(first, Some(1 | 2))));
}

/// m × d has up to 38 bits: 8,192 × 524,287 is below 2 to the 32, and 8,193 × 524,285 above.
#[test]
fn a_product_of_32_bits_is_wrong_at_pulse_8193() {
    let wrong = wrong_shares(|m, d, master_distance| m.wrapping_mul(d) / master_distance);
    assert_eq!(wrong[..7], [Some(8_193); 7]);
    assert_eq!(wrong[7..], [None, None, Some(8_193)]);
}

/// d / M in parts of 2 to the 32, cut off: a third is behind at the third pulse.
#[test]
fn a_fraction_of_32_bits_is_wrong() {
    let wrong = wrong_shares(|m, d, master_distance| {
        let fraction = ((d as u64) << 32) / master_distance as u64;
        ((m as u64 * fraction) >> 32) as u32
    });
    assert!(wrong[..6].iter().all(Option::is_some));
    assert_eq!(wrong[6..9], [Some(3), None, None]);
}

/// "A share that creeps, as one held in single precision does": the product, the share, and a sum of shares.
#[test]
fn single_precision_is_wrong() {
    let product = wrong_shares(|m, d, master_distance| (m as f32 * d as f32 / master_distance as f32) as u32);
    assert_eq!(product[..6], [Some(35); 6]);
    let share = wrong_shares(|m, d, master_distance| (m as f32 * (d as f32 / master_distance as f32)) as u32);
    assert_eq!(share[..4], [Some(262_144), Some(29_229), Some(29_229), Some(262_144)]);
    let summed = wrong_steps(|remainder, d, master_distance| {
        let sum = f32::from_bits(remainder) + d as f32 / master_distance as f32;
        let (pulse, next) = if sum >= 1.0 { (true, sum - 1.0) } else { (false, sum) };
        (pulse, next.to_bits())
    });
    assert_eq!(summed[..4], [Some(262_144), Some(17_464), Some(17_464), Some(262_144)]);
}
