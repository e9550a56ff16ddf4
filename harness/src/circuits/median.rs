//! The median of 64-bit words: a network of exchanges by comparison, then the mean of the middle two where their number is even.

use super::{Circuit, Wire};
use crate::random::Random;

/// The exchanges of Knuth's merge exchange (Algorithm 5.2.2M) for any number of words.
fn exchanges(count: usize) -> Vec<(usize, usize)> {
    let mut pairs = Vec::new();
    let top = count.next_power_of_two() / 2;
    let mut p = top;
    while p > 0 {
        let (mut q, mut r, mut d) = (top, 0, p);
        loop {
            pairs.extend((0..count.saturating_sub(d)).filter(|i| i & p == r).map(|i| (i, i + d)));
            if q == p {
                break;
            }
            (d, q, r) = (q - p, q / 2, p);
        }
        p /= 2;
    }
    pairs
}

/// The lesser and the greater: a and b differ by b's bits where b is below a.
fn exchange(c: &mut Circuit, a: Wire, b: Wire) -> (Wire, Wire) {
    let borrows = c.below(b, a);
    let mask = c.sar(borrows, 63);
    let differ = c.xor(&[a, b]);
    let swap = c.and(mask, differ);
    (c.xor(&[a, swap]), c.xor(&[b, swap]))
}

/// The mean, rounded down: half the sum, with the carry put back on top.
fn mean(c: &mut Circuit, a: Wire, b: Wire) -> Wire {
    let (sum, carries) = c.add(a, b, None);
    let half = c.shr(sum, 1);
    let carry = c.shr(carries, 63);
    let top = c.shl(carry, 63);
    c.xor(&[half, top])
}

pub fn plain(mut words: Vec<u64>) -> u64 {
    words.sort_unstable();
    let middle = words.len() / 2;
    if words.len() % 2 == 1 {
        return words[middle];
    }
    ((u128::from(words[middle - 1]) + u128::from(words[middle])) / 2) as u64
}

pub fn build_at(words: &[u64]) -> Circuit {
    let mut c = Circuit::default();
    let mut wires = c.inputs(words);
    for (low, high) in exchanges(words.len()) {
        (wires[low], wires[high]) = exchange(&mut c, wires[low], wires[high]);
    }
    let middle = wires.len() / 2;
    let median = match wires.len() % 2 {
        1 => wires[middle],
        _ => mean(&mut c, wires[middle - 1], wires[middle]),
    };
    c.output(median, plain(words.to_vec()));
    c
}

pub fn build(count: usize, random: &mut Random) -> Circuit {
    let words: Vec<u64> = (0..count).map(|_| random.word()).collect();
    build_at(&words)
}
