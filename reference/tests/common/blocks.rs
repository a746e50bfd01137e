//! Paper 02, 3/14: blocks in the answers of ticks.

use reference::{front, Machine};

/// One tick with so many bytes lent; its block as text, with 0D as a line feed. The bytes behind it keep their values.
pub fn block_in(machine: &mut Machine, word: u32, lent: usize) -> String {
    let mut buf = vec![0xEE; lent];
    let answer = machine.tick(word, &mut buf);
    assert!(buf[answer.len..].iter().all(|&byte| byte == 0xEE));
    String::from_utf8(front(&buf, answer.len).to_vec()).unwrap().replace('\r', "\n")
}

/// One tick with 120 bytes lent; its block.
pub fn block(machine: &mut Machine, word: u32) -> String {
    block_in(machine, word, 120)
}

/// So many ticks without a block.
pub fn no_block(machine: &mut Machine, n: u32, word: u32) {
    for tick in 1..=n {
        assert_eq!(block(machine, word), "", "{tick}");
    }
}
