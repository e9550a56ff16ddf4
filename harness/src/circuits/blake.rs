//! The compressions of BLAKE2b and of BLAKE3, the latter two at once, in the low and in the high halves of all words.

use super::{Circuit, Wire};
use crate::random::Random;

const START_2B: [u64; 8] = [
    0x6a09e667f3bcc908,
    0xbb67ae8584caa73b,
    0x3c6ef372fe94f82b,
    0xa54ff53a5f1d36f1,
    0x510e527fade682d1,
    0x9b05688c2b3e6c1f,
    0x1f83d9abfb41bd6b,
    0x5be0cd19137e2179,
];

const SIGMA: [[usize; 16]; 10] = [
    [0, 1, 2, 3, 4, 5, 6, 7, 8, 9, 10, 11, 12, 13, 14, 15],
    [14, 10, 4, 8, 9, 15, 13, 6, 1, 12, 0, 2, 11, 7, 5, 3],
    [11, 8, 12, 0, 5, 2, 15, 13, 10, 14, 3, 6, 7, 1, 9, 4],
    [7, 9, 3, 1, 13, 12, 11, 14, 2, 6, 5, 10, 4, 0, 15, 8],
    [9, 0, 5, 7, 2, 4, 10, 15, 14, 1, 11, 12, 6, 8, 3, 13],
    [2, 12, 6, 10, 0, 11, 8, 3, 4, 13, 7, 5, 15, 14, 1, 9],
    [12, 5, 1, 15, 14, 13, 4, 10, 0, 7, 6, 3, 9, 2, 8, 11],
    [13, 11, 7, 14, 12, 1, 3, 9, 5, 0, 15, 4, 8, 6, 2, 10],
    [6, 15, 14, 9, 11, 3, 0, 8, 12, 2, 13, 7, 1, 4, 10, 5],
    [10, 2, 8, 4, 7, 6, 1, 5, 15, 11, 9, 14, 3, 12, 13, 0],
];

/// BLAKE3's order of the message words after a round.
const PERMUTATION: [usize; 16] = [2, 6, 3, 10, 7, 0, 4, 13, 1, 11, 12, 5, 9, 14, 15, 8];

/// The words that each of a round's eight mixings takes: four columns, then four diagonals.
const MIXINGS: [[usize; 4]; 8] = [
    [0, 4, 8, 12],
    [1, 5, 9, 13],
    [2, 6, 10, 14],
    [3, 7, 11, 15],
    [0, 5, 10, 15],
    [1, 6, 11, 12],
    [2, 7, 8, 13],
    [3, 4, 9, 14],
];

/// The order of the message words in each round of BLAKE3.
fn order_3(rounds: usize) -> Vec<[usize; 16]> {
    let first: [usize; 16] = std::array::from_fn(|at| at);
    let orders = std::iter::successors(Some(first), |order| Some(PERMUTATION.map(|at| order[at])));
    orders.take(rounds).collect()
}

fn order_2b(rounds: usize) -> Vec<[usize; 16]> {
    SIGMA.into_iter().cycle().take(rounds).collect()
}

/// How the two hashes differ: sum and right turn of a word, and the four turns.
struct Plain<T> {
    add: fn(T, T) -> T,
    turn: fn(T, u32) -> T,
    turns: [u32; 4],
}

fn plain_rounds<T: Copy + std::ops::BitXor<Output = T>>(
    how: &Plain<T>,
    v: &mut [T; 16],
    m: &[T],
    orders: &[[usize; 16]],
) {
    for order in orders {
        for (at, &[a, b, c, d]) in MIXINGS.iter().enumerate() {
            for half in 0..2 {
                v[a] = (how.add)((how.add)(v[a], v[b]), m[order[2 * at + half]]);
                v[d] = (how.turn)(v[d] ^ v[a], how.turns[2 * half]);
                v[c] = (how.add)(v[c], v[d]);
                v[b] = (how.turn)(v[b] ^ v[c], how.turns[2 * half + 1]);
            }
        }
    }
}

/// BLAKE2b's compression after some of its 12 rounds: state, block, count of bytes, last or not.
pub fn plain_2b(h: [u64; 8], m: [u64; 16], bytes: u64, last: bool, rounds: usize) -> [u64; 8] {
    let mut v = first_words_2b(h, bytes, last);
    let how = Plain { add: u64::wrapping_add, turn: u64::rotate_right, turns: [32, 24, 16, 63] };
    plain_rounds(&how, &mut v, &m, &order_2b(rounds));
    std::array::from_fn(|at| h[at] ^ v[at] ^ v[at + 8])
}

fn first_words_2b(h: [u64; 8], bytes: u64, last: bool) -> [u64; 16] {
    let mut v = [0; 16];
    v[..8].copy_from_slice(&h);
    v[8..].copy_from_slice(&START_2B);
    v[12] ^= bytes;
    if last {
        v[14] = !v[14];
    }
    v
}

/// The state that BLAKE2b starts from for an unkeyed hash of 64 bytes.
pub fn start_2b() -> [u64; 8] {
    let mut start = START_2B;
    start[0] ^= 0x0101_0040;
    start
}

/// BLAKE3's compression after some of its 7 rounds: state, block, count of bytes, flags.
pub fn plain_3(h: [u32; 8], m: [u32; 16], bytes: u32, flags: u32, rounds: usize) -> [u32; 16] {
    let mut v = first_words_3(h, bytes, flags);
    let how = Plain { add: u32::wrapping_add, turn: u32::rotate_right, turns: [16, 12, 8, 7] };
    plain_rounds(&how, &mut v, &m, &order_3(rounds));
    std::array::from_fn(|at| if at < 8 { v[at] ^ v[at + 8] } else { v[at] ^ h[at - 8] })
}

fn first_words_3(h: [u32; 8], bytes: u32, flags: u32) -> [u32; 16] {
    let mut v = [0; 16];
    v[..8].copy_from_slice(&h);
    v[8..12].copy_from_slice(&super::sha256::START[..4]);
    v[14] = bytes;
    v[15] = flags;
    v
}

/// How a circuit adds and turns.
struct Gates {
    add: fn(&mut Circuit, Wire, Wire) -> Wire,
    turn: fn(&mut Circuit, Wire, u32) -> Wire,
    turns: [u32; 4],
}

fn rounds(c: &mut Circuit, gates: &Gates, v: &mut [Wire; 16], m: &[Wire], orders: &[[usize; 16]]) {
    for order in orders {
        for (at, &words) in MIXINGS.iter().enumerate() {
            mix(c, gates, v, words, [m[order[2 * at]], m[order[2 * at + 1]]]);
        }
    }
}

fn mix(circuit: &mut Circuit, gates: &Gates, v: &mut [Wire; 16], [a, b, c, d]: [usize; 4], message: [Wire; 2]) {
    for half in 0..2 {
        let sum = (gates.add)(circuit, v[a], v[b]);
        v[a] = (gates.add)(circuit, sum, message[half]);
        let mixed = circuit.xor(&[v[d], v[a]]);
        v[d] = (gates.turn)(circuit, mixed, gates.turns[2 * half]);
        v[c] = (gates.add)(circuit, v[c], v[d]);
        let mixed = circuit.xor(&[v[b], v[c]]);
        v[b] = (gates.turn)(circuit, mixed, gates.turns[2 * half + 1]);
    }
}

pub fn build_2b_at(h: [u64; 8], m: [u64; 16], bytes: u64, last: bool, count: usize) -> Circuit {
    let gates = Gates { add: |c, a, b| c.add(a, b, None).0, turn: Circuit::rotr, turns: [32, 24, 16, 63] };
    let mut c = Circuit::default();
    let mut v = first_words_2b(h, bytes, last).map(|word| c.input(word));
    let state = v;
    let message = c.inputs(&m);
    rounds(&mut c, &gates, &mut v, &message, &order_2b(count));
    for (at, expected) in plain_2b(h, m, bytes, last, count).into_iter().enumerate() {
        let out = c.xor(&[state[at], v[at], v[at + 8]]);
        c.output(out, expected);
    }
    c
}

pub fn build_2b(count: usize, random: &mut Random) -> Circuit {
    let m = std::array::from_fn(|_| random.word());
    build_2b_at(start_2b(), m, 128, false, count)
}

pub fn build_3_at(h: [[u32; 8]; 2], m: [[u32; 16]; 2], bytes: u32, flags: u32, count: usize) -> Circuit {
    let gates = Gates { add: Circuit::add32, turn: Circuit::rotr32, turns: [16, 12, 8, 7] };
    let mut c = Circuit::default();
    let first = [0, 1].map(|half| first_words_3(h[half], bytes, flags));
    let mut v = packed(first).map(|word| c.input(word));
    let state = v;
    let message = c.inputs(&packed(m));
    rounds(&mut c, &gates, &mut v, &message, &order_3(count));
    let expected = packed([0, 1].map(|half| plain_3(h[half], m[half], bytes, flags, count)));
    for (at, expected) in expected.into_iter().enumerate() {
        let out = if at < 8 { c.xor(&[v[at], v[at + 8]]) } else { c.xor(&[v[at], state[at - 8]]) };
        c.output(out, expected);
    }
    c
}

fn packed<const N: usize>([low, high]: [[u32; N]; 2]) -> [u64; N] {
    std::array::from_fn(|at| u64::from(high[at]) << 32 | u64::from(low[at]))
}

pub fn build_3(count: usize, random: &mut Random) -> Circuit {
    let mut block = || std::array::from_fn(|_| random.word() as u32);
    let blocks = [block(), block()];
    build_3_at([super::sha256::START; 2], blocks, 64, 11, count)
}
