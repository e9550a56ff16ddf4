//! SHA-256's compression, two at once: one in the low halves of all words, one in the high halves.

use super::{Circuit, Wire};
use crate::random::Random;

pub const K: [u32; 64] = [
    0x428a2f98, 0x71374491, 0xb5c0fbcf, 0xe9b5dba5, 0x3956c25b, 0x59f111f1, 0x923f82a4, 0xab1c5ed5, 0xd807aa98,
    0x12835b01, 0x243185be, 0x550c7dc3, 0x72be5d74, 0x80deb1fe, 0x9bdc06a7, 0xc19bf174, 0xe49b69c1, 0xefbe4786,
    0x0fc19dc6, 0x240ca1cc, 0x2de92c6f, 0x4a7484aa, 0x5cb0a9dc, 0x76f988da, 0x983e5152, 0xa831c66d, 0xb00327c8,
    0xbf597fc7, 0xc6e00bf3, 0xd5a79147, 0x06ca6351, 0x14292967, 0x27b70a85, 0x2e1b2138, 0x4d2c6dfc, 0x53380d13,
    0x650a7354, 0x766a0abb, 0x81c2c92e, 0x92722c85, 0xa2bfe8a1, 0xa81a664b, 0xc24b8b70, 0xc76c51a3, 0xd192e819,
    0xd6990624, 0xf40e3585, 0x106aa070, 0x19a4c116, 0x1e376c08, 0x2748774c, 0x34b0bcb5, 0x391c0cb3, 0x4ed8aa4a,
    0x5b9cca4f, 0x682e6ff3, 0x748f82ee, 0x78a5636f, 0x84c87814, 0x8cc70208, 0x90befffa, 0xa4506ceb, 0xbef9a3f7,
    0xc67178f2,
];

pub const START: [u32; 8] =
    [0x6a09e667, 0xbb67ae85, 0x3c6ef372, 0xa54ff53a, 0x510e527f, 0x9b05688c, 0x1f83d9ab, 0x5be0cd19];

/// Compression stopped after some of its 64 rounds.
pub fn plain(state: [u32; 8], block: [u32; 16], rounds: usize) -> [u32; 8] {
    let mut w = block.to_vec();
    for t in 16..rounds {
        let s0 = w[t - 15].rotate_right(7) ^ w[t - 15].rotate_right(18) ^ w[t - 15] >> 3;
        let s1 = w[t - 2].rotate_right(17) ^ w[t - 2].rotate_right(19) ^ w[t - 2] >> 10;
        w.push(w[t - 16].wrapping_add(s0).wrapping_add(w[t - 7]).wrapping_add(s1));
    }
    let [mut a, mut b, mut c, mut d, mut e, mut f, mut g, mut h] = state;
    for t in 0..rounds {
        let s1 = e.rotate_right(6) ^ e.rotate_right(11) ^ e.rotate_right(25);
        let ch = e & f ^ !e & g;
        let t1 = h.wrapping_add(s1).wrapping_add(ch).wrapping_add(K[t]).wrapping_add(w[t]);
        let s0 = a.rotate_right(2) ^ a.rotate_right(13) ^ a.rotate_right(22);
        let maj = a & b ^ a & c ^ b & c;
        (h, g, f, e) = (g, f, e, d.wrapping_add(t1));
        (d, c, b, a) = (c, b, a, t1.wrapping_add(s0).wrapping_add(maj));
    }
    let after = [a, b, c, d, e, f, g, h];
    std::array::from_fn(|at| state[at].wrapping_add(after[at]))
}

fn rotations(c: &mut Circuit, wire: Wire, by: [u32; 3]) -> Wire {
    let rotated = by.map(|amount| c.rotr32(wire, amount));
    c.xor(&rotated)
}

/// The message schedule's small sigmas end in a shift.
fn rotations_and_shift(c: &mut Circuit, wire: Wire, by: [u32; 2], right: u32) -> Wire {
    let rotated = by.map(|amount| c.rotr32(wire, amount));
    let shifted = c.srl32(wire, right);
    c.xor(&[rotated[0], rotated[1], shifted])
}

fn schedule(c: &mut Circuit, w: &mut Vec<Wire>, rounds: usize) {
    for t in 16..rounds {
        let s0 = rotations_and_shift(c, w[t - 15], [7, 18], 3);
        let s1 = rotations_and_shift(c, w[t - 2], [17, 19], 10);
        let first = c.add32(w[t - 16], s0);
        let second = c.add32(first, w[t - 7]);
        w.push(c.add32(second, s1));
    }
}

fn round(c: &mut Circuit, [a, b, cc, d, e, f, g, h]: [Wire; 8], k: u32, w: Wire) -> [Wire; 8] {
    let s1 = rotations(c, e, [6, 11, 25]);
    let f_xor_g = c.xor(&[f, g]);
    let ch = c.and_xor(e, f_xor_g, g);
    let k = c.constant(both_halves(k, k));
    let t1 = [s1, ch, k, w].into_iter().fold(h, |sum, part| c.add32(sum, part));
    let s0 = rotations(c, a, [2, 13, 22]);
    let (a_xor_c, b_xor_c) = (c.xor(&[a, cc]), c.xor(&[b, cc]));
    let maj = c.and_xor(a_xor_c, b_xor_c, cc);
    let t2 = c.add32(s0, maj);
    [c.add32(t1, t2), a, b, cc, c.add32(d, t1), e, f, g]
}

fn both_halves(low: u32, high: u32) -> u64 {
    u64::from(high) << 32 | u64::from(low)
}

fn packed<const N: usize>(low: [u32; N], high: [u32; N]) -> [u64; N] {
    std::array::from_fn(|at| both_halves(low[at], high[at]))
}

pub fn build_at(states: [[u32; 8]; 2], blocks: [[u32; 16]; 2], rounds: usize) -> Circuit {
    let mut c = Circuit::default();
    let state: [Wire; 8] = packed(states[0], states[1]).map(|word| c.input(word));
    let mut w = c.inputs(&packed(blocks[0], blocks[1]));
    schedule(&mut c, &mut w, rounds);
    let after = (0..rounds).fold(state, |state, t| round(&mut c, state, K[t], w[t]));
    let low = plain(states[0], blocks[0], rounds);
    let high = plain(states[1], blocks[1], rounds);
    let expected = packed(low, high);
    for at in 0..8 {
        let sum = c.add32(state[at], after[at]);
        c.output(sum, expected[at]);
    }
    c
}

pub fn build(rounds: usize, random: &mut Random) -> Circuit {
    let mut number = || random.word() as u32;
    let mut block = || std::array::from_fn(|_| number());
    let blocks = [block(), block()];
    build_at([START, START], blocks, rounds)
}
