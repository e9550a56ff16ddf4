//! Systems that 01 refuses, that expand far, and that plain expansion never ends on.

use super::shapes::{Draft, Shape, draft, palette};
use crate::{
    random::Random,
    rules::shift::{SLL, SLL32, SLR, SRL32, shift, width},
    system::{Definition, System, Term},
};

/// TWICE, EMPTY, DOUBLE and CIRCLE, one or several, at random places of a small system.
pub fn faulty(random: &mut Random) -> System {
    let shape = Shape::small(random);
    let mut system = draft(random, &shape).shuffled(random);
    for _ in 0..random.between(1, 2) {
        match random.below(5) {
            0 => define_again(random, &mut system),
            1 => empty_one(random, &mut system),
            2 => double_in_definition(random, &mut system),
            3 => double_in_other(random, &mut system),
            _ => close_circle(random, &mut system),
        }
    }
    system
}

fn define_again(random: &mut Random, system: &mut System) {
    let dst = random.pick(&system.linears).dst;
    let rhs = vec![Term::plain(random.below(system.wires) as u16)];
    system.linears.push(Definition { dst, rhs });
}

fn empty_one(random: &mut Random, system: &mut System) {
    let at = random.below(system.linears.len());
    system.linears[at].rhs.clear();
}

fn double_in_definition(random: &mut Random, system: &mut System) {
    let at = random.below(system.linears.len());
    if let Some(term) = system.linears[at].rhs.last_mut() {
        term.outer = 64 * random.below(8) as u16 + 1;
    }
}

fn double_in_other(random: &mut Random, system: &mut System) {
    let wire = random.pick(&system.linears).dst;
    let outer = 64 * random.below(8) as u16 + 1;
    let operands = system.others.iter_mut().flatten().flatten();
    let mut operands: Vec<_> = operands.collect();
    if !operands.is_empty() {
        let at = random.below(operands.len());
        operands[at].push(Term::new(wire, 0, outer));
    }
}

/// A definition names one that reaches it, or itself.
fn close_circle(random: &mut Random, system: &mut System) {
    let from = random.below(system.linears.len());
    let mut wire = system.linears[from].dst;
    for _ in 0..random.below(3) {
        let naming = system.linears.iter().find(|definition| definition.rhs.iter().any(|term| term.wire == wire));
        wire = naming.map_or(wire, |definition| definition.dst);
    }
    system.linears[from].rhs.push(Term::plain(wire));
}

/// Levels of definitions that each name the next one several times: operands that multiply.
pub fn tower(random: &mut Random) -> System {
    let shifts = palette(random, 1, 2);
    let mut draft = Draft::new(2);
    let mut below = 0;
    for _ in 0..random.between(2, 9) {
        let copies = random.between(1, 5);
        let term =
            |random: &mut Random| Term::single(below, if random.percent(15) { *random.pick(&shifts) } else { 0 });
        let rhs = (0..copies).map(|_| term(random)).collect();
        below = draft.define(rhs);
    }
    for _ in 0..random.between(1, 3) {
        draft.zero(vec![Term::plain(below); random.between(1, 3)]);
    }
    draft.shuffled(random)
}

/// Accepted systems whose plain expansion looks at more terms than anyone waits for, though next to nothing is written: the last
/// definition shifts out all that is left.
pub fn endless(random: &mut Random) -> System {
    let copies = random.between(2, 1000);
    if random.percent(50) {
        return endless_by_one(random, copies);
    }
    endless_by_two(random, copies)
}

/// All in one run: definitions of many terms, each read as often.
fn endless_by_one(random: &mut Random, copies: usize) -> System {
    let variant = *random.pick(&[SLL, SLR, SLL32, SRL32]);
    let far = shift(variant, width(variant) / 2 + 8);
    let mut draft = Draft::new(1);
    let mut below = draft.define(vec![Term::single(0, far)]);
    for _ in 0..random.between(1, 6) {
        below = draft.define(vec![Term::plain(below); copies]);
    }
    draft.zero(vec![Term::single(below, far)]);
    draft.shuffled(random)
}

/// In two runs, which many terms read often would not be let: so definitions of many terms read once, and of one term read often, by
/// turns. The last shift joins the inner run, and so far inside that the outer shift then continues it: sll 50, sll32 20 is Zero.
fn endless_by_two(random: &mut Random, copies: usize) -> System {
    let (half, full) = *random.pick(&[(SLL32, SLL), (SRL32, SLR)]);
    let mut draft = Draft::new(1);
    let mut below = draft.define(vec![Term::single(0, shift(full, 30))]);
    for _ in 0..random.between(1, 4) {
        let many = draft.define(vec![Term::plain(below); copies]);
        below = draft.define(vec![Term::plain(many)]);
    }
    let top = draft.define(vec![Term::single(below, shift(full, 20))]);
    draft.zero(vec![Term::single(top, shift(half, 20))]);
    draft.shuffled(random)
}
