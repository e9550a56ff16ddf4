//! GHASH: blocks with their bits turned round, as its field's order of bits asks, and a Bmul for each.

use super::{Circuit, Wire};
use crate::{evaluate::field_product, random::Random};

/// GHASH of blocks, as numbers whose first byte is the highest.
pub fn plain(key: u128, blocks: &[u128]) -> u128 {
    let sum = blocks.iter().fold(0, |sum, block| field_product(sum ^ block.reverse_bits(), key.reverse_bits()));
    sum.reverse_bits()
}

/// Bits that stay when neighbours of 1, 2, .., 32 bits change places, on their right.
const MASKS: [(u32, u64); 6] = [
    (1, 0x5555_5555_5555_5555),
    (2, 0x3333_3333_3333_3333),
    (4, 0x0F0F_0F0F_0F0F_0F0F),
    (8, 0x00FF_00FF_00FF_00FF),
    (16, 0x0000_FFFF_0000_FFFF),
    (32, 0x0000_0000_FFFF_FFFF),
];

/// A word's bits in opposite order.
fn reverse(c: &mut Circuit, wire: Wire) -> Wire {
    MASKS.iter().fold(wire, |wire, &(distance, mask)| {
        let mask = c.constant(mask);
        let moved = c.shr(wire, distance);
        let to_right = c.and(moved, mask);
        let kept = c.and(wire, mask);
        let to_left = c.shl(kept, distance);
        c.xor(&[to_right, to_left])
    })
}

/// A block's field element, low word first: the block's first bit stands for x^0.
fn element(c: &mut Circuit, block: u128) -> [Wire; 2] {
    let words = [(block >> 64) as u64, block as u64].map(|word| c.input(word));
    words.map(|wire| reverse(c, wire))
}

pub fn build_at(key: u128, blocks: &[u128]) -> Circuit {
    let mut c = Circuit::default();
    let key_element = element(&mut c, key);
    let zero = c.constant(0);
    let mut sum = [zero, zero];
    for &block in blocks {
        let element = element(&mut c, block);
        let mixed = [0, 1].map(|half| c.xor(&[sum[half], element[half]]));
        sum = c.field_multiply(mixed, key_element);
    }
    let out = sum.map(|wire| reverse(&mut c, wire));
    let expected = plain(key, blocks);
    c.output(out[0], (expected >> 64) as u64);
    c.output(out[1], expected as u64);
    c
}

pub fn build(count: usize, random: &mut Random) -> Circuit {
    let mut block = || u128::from(random.word()) << 64 | u128::from(random.word());
    let key = block();
    let blocks: Vec<u128> = (0..count).map(|_| block()).collect();
    build_at(key, &blocks)
}
