//! Every system of one small shape: a Zero over wires 0 to 2, wire 1 defined over 0 and 2, wire 2 over 0, one or two terms each, and five
//! shifts that meet in all ways.

use crate::{
    rules::shift::{ROTR, SLL, SLR, shift},
    system::{Definition, Operand, System, Term, ZERO},
};

const SHIFTS: [u16; 5] = [0, shift(SLL, 1), shift(SLL, 40), shift(SLR, 1), shift(ROTR, 5)];

/// Operands of one or two terms over so many wires.
const fn operands(wires: u64) -> u64 {
    let terms = wires * SHIFTS.len() as u64;
    terms + terms * terms
}

/// The number of these systems.
pub const COUNT: u64 = operands(3) * operands(2) * operands(1);

/// Prime to the count, so that stepping by it comes to every system once, and the first seeds are spread over all.
const STEP: u64 = 7_368_787;

/// The system of a seed; seeds come round after `COUNT`.
pub fn system(seed: u64) -> System {
    let mut code = (seed % COUNT) * STEP % COUNT;
    let mut system = System::new(3);
    system.others[ZERO].push(vec![operand(&mut code, &[0, 1, 2])]);
    for (dst, over) in [(1, [0, 2].as_slice()), (2, &[0])] {
        let rhs = operand(&mut code, over);
        system.linears.push(Definition { dst, rhs });
    }
    system
}

fn operand(code: &mut u64, wires: &[u16]) -> Operand {
    let count = operands(wires.len() as u64);
    let terms = (wires.len() * SHIFTS.len()) as u64;
    let own = *code % count;
    *code /= count;
    let term = |at: u64| {
        let at = at as usize;
        Term::single(wires[at / SHIFTS.len()], SHIFTS[at % SHIFTS.len()])
    };
    match own.checked_sub(terms) {
        None => vec![term(own)],
        Some(pair) => vec![term(pair / terms), term(pair % terms)],
    }
}
