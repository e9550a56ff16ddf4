//! The product of two numbers of many words: a product of two words is an Imul, the sums are carry chains.

use super::{Circuit, Wire};
use crate::random::Random;

pub fn plain(a: &[u64], b: &[u64]) -> Vec<u64> {
    let mut out = vec![0u64; a.len() + b.len()];
    for (i, &x) in a.iter().enumerate() {
        let mut carry = 0u128;
        for (j, &y) in b.iter().enumerate() {
            let sum = u128::from(x) * u128::from(y) + u128::from(out[i + j]) + carry;
            out[i + j] = sum as u64;
            carry = sum >> 64;
        }
        out[i + b.len()] = carry as u64;
    }
    out
}

/// Adds words to a number from a word on, carrying to its end.
fn add_at(c: &mut Circuit, number: &mut [Wire], from: usize, words: &[Wire]) {
    let zero = c.constant(0);
    let mut carries = None;
    for at in from..number.len() {
        let word = words.get(at - from).copied().unwrap_or(zero);
        let (sum, carried) = c.add(number[at], word, carries);
        number[at] = sum;
        carries = Some(carried);
    }
}

pub fn build_at(a: &[u64], b: &[u64]) -> Circuit {
    let mut c = Circuit::default();
    let (left, right) = (c.inputs(a), c.inputs(b));
    let zero = c.constant(0);
    let mut product = vec![zero; a.len() + b.len()];
    for (i, &x) in left.iter().enumerate() {
        let parts: Vec<(Wire, Wire)> = right.iter().map(|&y| c.multiply(x, y)).collect();
        let lows: Vec<Wire> = parts.iter().map(|part| part.1).collect();
        let highs: Vec<Wire> = parts.iter().map(|part| part.0).collect();
        // Behind row i the number so far is below 2^(64 (i + 1 + len b)): no carry goes further.
        let end = i + 1 + b.len();
        add_at(&mut c, &mut product[..end], i, &lows);
        add_at(&mut c, &mut product[..end], i + 1, &highs);
    }
    for (wire, expected) in product.into_iter().zip(plain(a, b)) {
        c.output(wire, expected);
    }
    c
}

pub fn build(limbs: usize, random: &mut Random) -> Circuit {
    let mut number = || (0..limbs).map(|_| random.word()).collect::<Vec<_>>();
    build_at(&number(), &number())
}
