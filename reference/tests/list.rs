//! The list of demand 3: long lists of bytes and ticks, followed from their answers alone.

mod common;
use common::followed::Followed;
use common::sequence::{drawn_line, Sequence};
use reference::Machine;

/// One line goes in; between its bytes come some that are turned away by 2.
fn run_line(machine: &mut Machine, followed: &mut Followed, line: &[u8]) {
    for &byte in line {
        assert_eq!(followed.byte(machine, byte, 120), 0);
        assert_eq!(followed.byte(machine, 0x0D, 60), 2);
    }
    followed.byte(machine, 0x0D, 120);
}

/// One tick, after some that are turned away: by 3, by 2, and by 2 though 3 holds too.
fn run_tick(machine: &mut Machine, followed: &mut Followed, word: u32, lent: usize) {
    followed.tick(machine, word | 0x1000000, lent);
    followed.tick(machine, word, lent - 120);
    followed.tick(machine, word | 0x1000000, 119);
    followed.tick(machine, word, lent);
}

/// So many lines, with ticks after each.
fn run_list(seed: u64, lines: u32) -> Followed {
    let mut sequence = Sequence(seed);
    let mut machine = Machine::power_on(sequence.below(16) as u8).0;
    let mut followed = Followed::default();
    let mut word = 0xFFFFFF;
    for _ in 0..lines {
        let line = drawn_line(&mut sequence, followed.next_distances);
        run_line(&mut machine, &mut followed, &line);
        if sequence.below(4) == 0 {
            word = (sequence.draw() | sequence.draw() | sequence.draw()) as u32 & 0xFFFFFF;
        }
        let longest_run = [20, 600, 6_000][sequence.below(3) as usize];
        let lent = 120 + sequence.below(120) as usize;
        for _ in 0..sequence.below(longest_run) {
            run_tick(&mut machine, &mut followed, word, lent);
        }
    }
    followed
}

/// Demand 3, and the entry of every end: ticks since the start or the last carry-on, cause, and travels as the answers
/// since the start tell them, stopped and carried on or not. The block of a W line in the 2,500th accepted tick after
/// it, and in no other.
#[test]
fn lists_keep_demand_3_and_answer_entries_and_blocks() {
    let (mut starts, mut carry_ons, mut blocks, mut replaced, mut moves) = (0, 0, 0, 0, Vec::new());
    for seed in 1..=50u64 {
        let followed = run_list(seed.wrapping_mul(0x9E37_79B9_7F4A_7C15), 500);
        starts += followed.starts;
        carry_ons += followed.carry_ons;
        blocks += followed.settled.blocks;
        replaced += followed.settled.replaced;
        moves.extend(followed.ended);
    }
    let whole = moves.iter().filter(|(_, entry)| entry.cause == 0).count();
    let stored = moves.iter().filter(|(ended, _)| ended.stored).count();
    let refused = moves.iter().filter(|(ended, entry)| ended.refused_ticks as u64 >= entry.ticks - 1).count();
    assert!(starts > 500 && whole > 200 && stored > 50, "{starts} {whole} {stored}");
    assert!(blocks > 200 && replaced > 20, "{blocks} {replaced}");
    assert_eq!(refused, moves.len());
    assert!(moves.len() - whole > 100);
    let carried = moves.iter().filter(|(ended, _)| ended.carried > 1).count();
    let carried_whole = moves.iter().filter(|(ended, entry)| ended.carried > 0 && entry.cause == 0).count();
    assert!(carry_ons > 100 && carried > 20 && carried_whole > 20, "{carry_ons} {carried} {carried_whole}");
}
