//! Rounds of Keccak-f[1600].

use super::{Circuit, Wire};
use crate::random::Random;

/// Turns of the lanes, by x + 5 y.
const TURNS: [u32; 25] = [0, 1, 62, 28, 27, 36, 44, 6, 55, 20, 3, 10, 43, 25, 39, 41, 45, 15, 21, 8, 18, 2, 61, 56, 14];

/// The constants of the rounds, by the linear register that the standard gives them by.
fn round_constants() -> [u64; 24] {
    let mut register = 1u8;
    let mut next_bit = || {
        let bit = register & 1;
        let feedback = if register & 0x80 != 0 { 0x71 } else { 0 };
        register = register << 1 ^ feedback;
        bit != 0
    };
    std::array::from_fn(|_| {
        (0..7).fold(0, |constant, power| if next_bit() { constant | 1 << ((1u32 << power) - 1) } else { constant })
    })
}

pub fn plain(mut state: [u64; 25], rounds: usize) -> [u64; 25] {
    for constant in round_constants().into_iter().take(rounds) {
        let column = |x: usize| (0..5).fold(0, |sum, y| sum ^ state[x % 5 + 5 * y]);
        let parity: [u64; 5] = std::array::from_fn(|x| column(x + 4) ^ column(x + 1).rotate_left(1));
        let mut moved = [0; 25];
        for at in 0..25 {
            let (x, y) = (at % 5, at / 5);
            moved[y + 5 * ((2 * x + 3 * y) % 5)] = (state[at] ^ parity[x]).rotate_left(TURNS[at]);
        }
        let row = |at: usize, more: usize| moved[(at + more) % 5 + 5 * (at / 5)];
        state = std::array::from_fn(|at| moved[at] ^ !row(at, 1) & row(at, 2));
        state[0] ^= constant;
    }
    state
}

fn round(c: &mut Circuit, state: [Wire; 25], constant: u64) -> [Wire; 25] {
    let columns: [Wire; 5] = std::array::from_fn(|x| {
        let column: [Wire; 5] = std::array::from_fn(|y| state[x + 5 * y]);
        c.xor(&column)
    });
    let parity: [Wire; 5] = std::array::from_fn(|x| {
        let turned = c.rotl(columns[(x + 1) % 5], 1);
        c.xor(&[columns[(x + 4) % 5], turned])
    });
    let mut moved = state;
    for at in 0..25 {
        let (x, y) = (at % 5, at / 5);
        let mixed = c.xor(&[state[at], parity[x]]);
        let turned = if TURNS[at] == 0 { mixed } else { c.rotl(mixed, TURNS[at]) };
        moved[y + 5 * ((2 * x + 3 * y) % 5)] = turned;
    }
    let row = |at: usize, more: usize| moved[(at + more) % 5 + 5 * (at / 5)];
    let mut after = std::array::from_fn(|at| {
        let inverted = c.not(row(at, 1));
        c.and_xor(inverted, row(at, 2), moved[at])
    });
    let constant = c.constant(constant);
    after[0] = c.xor(&[after[0], constant]);
    after
}

pub fn build_at(words: [u64; 25], rounds: usize) -> Circuit {
    let mut c = Circuit::default();
    let start: [Wire; 25] = words.map(|word| c.input(word));
    let constants = round_constants();
    let after = (0..rounds).fold(start, |state, at| round(&mut c, state, constants[at]));
    for (wire, expected) in after.into_iter().zip(plain(words, rounds)) {
        c.output(wire, expected);
    }
    c
}

pub fn build(rounds: usize, random: &mut Random) -> Circuit {
    build_at(std::array::from_fn(|_| random.word()), rounds)
}
