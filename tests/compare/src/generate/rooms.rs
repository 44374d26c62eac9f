//! Rooms for what an entry writes, about the size that it needs.

use crate::random::Random;

/// Room for this size, which is not 0: a byte too little, just enough, more, one of these sizes that
/// matter, or any up to it. It holds anything before.
pub fn about(random: &mut Random, size: usize, sizes: &[usize]) -> Vec<u8> {
    let room = match random.below(8) {
        0..=1 => size - 1,
        2..=3 => size,
        4..=5 => size + random.within(1..=100),
        6 => random.pick(sizes),
        _ => random.within(0..=size),
    };
    random.bytes(room)
}
