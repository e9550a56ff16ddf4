//! Small systems that show one thing each, by name.

use crate::system::{AND, Definition, System, Term, ZERO};

const SLL: u16 = 0;
const SLR: u16 = 64;
const ROTR: u16 = 192;

fn define(system: &mut System, dst: u16, rhs: &[Term]) {
    system.linears.push(Definition { dst, rhs: rhs.to_vec() });
}

fn zero(system: &mut System, val: &[Term]) {
    system.others[ZERO].push(vec![val.to_vec()]);
}

/// 01's example of `fusereport`: wire 2, which only a dropped term names, is stranded.
pub fn stranded() -> System {
    let mut system = System::new(3);
    zero(&mut system, &[Term::single(1, SLL + 40)]);
    define(&mut system, 1, &[Term::single(2, SLL + 40)]);
    define(&mut system, 2, &[Term::plain(0)]);
    system
}

/// 01's And: wire 2 = (0, slr 2) xor 1, read under sll 1.
pub fn two_slots() -> System {
    let mut system = System::new(5);
    let operands = [Term::single(2, SLL + 1), Term::plain(3), Term::plain(4)];
    system.others[AND].push(operands.map(|term| vec![term]).to_vec());
    define(&mut system, 2, &[Term::single(0, SLR + 2), Term::plain(1)]);
    system
}

/// A straight chain of definitions of two terms under a Zero; the topmost is wire 2.
pub fn chain(length: u16) -> System {
    let mut system = System::new(usize::from(length) + 2);
    zero(&mut system, &[Term::plain(2)]);
    for wire in 2..length + 2 {
        let below = if wire == length + 1 { 0 } else { wire + 1 };
        define(&mut system, wire, &[Term::plain(below), Term::plain(1)]);
    }
    system
}

/// A definition of so many terms, read so often, that needs two runs.
pub fn product(terms: usize, uses: usize) -> System {
    let mut system = System::new(2);
    zero(&mut system, &vec![Term::single(1, SLL + 1); uses]);
    define(&mut system, 1, &vec![Term::single(0, SLR + 1); terms]);
    system
}

/// An odd identity that a push through a definition makes canonical.
pub fn odd_identity_pushed() -> System {
    let mut system = System::new(2);
    zero(&mut system, &[Term::new(1, SLL, SLR)]);
    define(&mut system, 1, &[Term::plain(0)]);
    system
}

/// An odd identity that is copied as it is spelt, beside a term that is expanded.
pub fn odd_identity_copied() -> System {
    let mut system = System::new(3);
    zero(&mut system, &[Term::new(2, ROTR, SLR), Term::plain(1)]);
    define(&mut system, 1, &[Term::plain(0)]);
    system
}

/// Operands that name no definition are copied too, where their constraint is rebuilt.
pub fn copied_operands() -> System {
    let mut system = System::new(3);
    let operands = [Term::plain(1), Term::plain(2), Term::plain(2)];
    system.others[AND].push(operands.map(|term| vec![term]).to_vec());
    define(&mut system, 1, &[Term::plain(0)]);
    system
}

/// Constraints that name only a committed wire are rebuilt, and stand behind one that names none.
pub fn moved() -> System {
    let mut system = product(2, 6);
    zero(&mut system, &[Term::plain(0)]);
    system
}

/// Two committed definitions, the one with the greater wire number first: they change places.
pub fn by_rising_wire() -> System {
    let mut system = System::new(3);
    for wire in [2, 1] {
        zero(&mut system, &vec![Term::single(wire, SLL + 1); 6]);
        define(&mut system, wire, &[Term::single(0, SLR + 1), Term::plain(0)]);
    }
    system
}

/// Plain expansion looks at copies^6 terms and writes none.
pub fn endless(copies: usize) -> System {
    let mut system = System::new(8);
    zero(&mut system, &[Term::single(0, SLL + 40)]);
    for wire in 0..6 {
        define(&mut system, wire, &vec![Term::plain(wire + 1); copies]);
    }
    define(&mut system, 6, &[Term::single(7, SLL + 40)]);
    system
}

/// All of them that a replay file takes.
pub fn all() -> Vec<(&'static str, System)> {
    vec![
        ("stranded", stranded()),
        ("two_slots", two_slots()),
        ("chain 8", chain(8)),
        ("chain 17", chain(17)),
        ("chain 1024", chain(1024)),
        ("product 3 3", product(3, 3)),
        ("product 2 6", product(2, 6)),
        ("odd_identity_pushed", odd_identity_pushed()),
        ("odd_identity_copied", odd_identity_copied()),
        ("copied_operands", copied_operands()),
        ("moved", moved()),
        ("by_rising_wire", by_rising_wire()),
        ("endless 50", endless(50)),
    ]
}
