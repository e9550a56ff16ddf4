//! Values: an operand's word, whether constraints hold, and filling back. All from 01, over the original definitions.

use crate::system::{AND, BMUL, Definition, IMUL, KINDS, System, Term, ZERO};

/// A word under a shift, by machine operations.
pub fn shifted(by: u16, word: u64) -> u64 {
    let amount = u32::from(by % 64);
    match by / 64 {
        0 => word << amount,
        1 => word >> amount,
        2 => ((word as i64) >> amount) as u64,
        3 => word.rotate_right(amount),
        4 => by_halves(word, |half| half << amount),
        5 => by_halves(word, |half| half >> amount),
        6 => by_halves(word, |half| ((half as i32) >> amount) as u32),
        _ => by_halves(word, |half| half.rotate_right(amount)),
    }
}

fn by_halves(word: u64, act: impl Fn(u32) -> u32) -> u64 {
    u64::from(act((word >> 32) as u32)) << 32 | u64::from(act(word as u32))
}

/// The xor of the terms' shifted words.
pub fn value(operand: &[Term], words: &[u64]) -> u64 {
    operand.iter().fold(0, |sum, term| sum ^ shifted(term.outer, shifted(term.inner, words[usize::from(term.wire)])))
}

/// The value of every operand, in the writer's order.
pub fn values(system: &System, words: &[u64]) -> Vec<u64> {
    system.operands().map(|operand| value(operand, words)).collect()
}

/// The first constraint that does not hold, by name and position.
pub fn broken(system: &System, words: &[u64]) -> Option<String> {
    for kind in 0..KINDS {
        for (position, constraint) in system.others[kind].iter().enumerate() {
            let values: Vec<u64> = constraint.iter().map(|operand| value(operand, words)).collect();
            if !holds(kind, &values) {
                return Some(format!("{} {position}: {values:x?}", crate::system::NAMES[kind]));
            }
        }
    }
    let definitions = system.linears.iter();
    let mut unequal = definitions.filter(|Definition { dst, rhs }| value(rhs, words) != words[usize::from(*dst)]);
    unequal.next().map(|definition| format!("linear {}", definition.dst))
}

fn holds(kind: usize, values: &[u64]) -> bool {
    match (kind, values) {
        (AND, &[a, b, c]) => a & b == c,
        (IMUL, &[a, b, hi, lo]) => u128::from(a) * u128::from(b) == u128::from(hi) << 64 | u128::from(lo),
        (BMUL, &[a_lo, a_hi, b_lo, b_hi, c_lo, c_hi]) => {
            field_product(whole(a_lo, a_hi), whole(b_lo, b_hi)) == whole(c_lo, c_hi)
        }
        (ZERO, &[val]) => val == 0,
        _ => false,
    }
}

pub fn whole(lo: u64, hi: u64) -> u128 {
    u128::from(hi) << 64 | u128::from(lo)
}

/// The product in the field of GHASH, bit i standing for x^i: modulo x^128 + x^7 + x^2 + x + 1.
pub fn field_product(a: u128, b: u128) -> u128 {
    (0..128).rev().fold(0, |sum, bit| {
        let carry = sum >> 127;
        let doubled = sum << 1 ^ carry * 0x87;
        doubled ^ (b >> bit & 1) * a
    })
}

/// Gives every wire of an uncommitted definition its value again. `committed` is by wire; what stands at the other wires decides.
pub fn fill_back(system: &System, committed: &[bool], words: &mut [u64]) {
    let definition_of = system.definition_of();
    let mut filled: Vec<bool> =
        (0..system.wires).map(|wire| committed[wire] || definition_of[wire].is_none()).collect();
    for definition in &system.linears {
        fill_wire(system, &definition_of, &mut filled, words, definition.dst);
    }
}

fn fill_wire(system: &System, definition_of: &[Option<usize>], filled: &mut [bool], words: &mut [u64], wire: u16) {
    let at = usize::from(wire);
    if std::mem::replace(&mut filled[at], true) {
        return;
    }
    let position = definition_of[at].expect("an unfilled wire has a definition");
    let rhs = &system.linears[position].rhs;
    for term in rhs {
        fill_wire(system, definition_of, filled, words, term.wire);
    }
    words[at] = value(rhs, words);
}

/// Words for all wires at which every definition holds: those of undefined wires are given, the others follow.
pub fn solved(system: &System, mut word: impl FnMut() -> u64) -> Vec<u64> {
    let mut words: Vec<u64> = (0..system.wires).map(|_| word()).collect();
    fill_back(system, &vec![false; system.wires], &mut words);
    words
}
