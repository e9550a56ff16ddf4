//! Systems at 01's limits and one over them, and systems that fill a result store exactly or by one too many.

use super::shapes::{Draft, palette};
use crate::{
    random::Random,
    system::{AND, Definition, MAX_DEFINITIONS, MAX_OTHERS, MAX_TERMS, MAX_WIRES, MAX_WRITTEN, System, Term, ZERO},
};

/// One of the four limits, met or gone over by one; the rest is drawn.
pub fn limit(random: &mut Random) -> System {
    let over = random.percent(25) as usize;
    match random.below(6) {
        0 => wires(random, MAX_WIRES + over),
        1 => definitions(random, MAX_DEFINITIONS + over),
        2 => others(random, MAX_OTHERS + over),
        3 => terms(random, MAX_TERMS + over),
        4 => straight(random, MAX_DEFINITIONS + over),
        _ => fan(random, over),
    }
}

/// Definitions spread over all wires.
fn wires(random: &mut Random, wires: usize) -> System {
    let mut system = System::new(wires);
    let shifts = palette(random, 2, 4);
    let mut free: Vec<u16> = (0..wires as u16).collect();
    random.shuffle(&mut free);
    for at in 0..700 {
        let rhs = (0..random.between(1, 3)).map(|back| Term::single(free[at + 1 + back], *random.pick(&shifts)));
        let rhs = rhs.collect();
        system.linears.push(Definition { dst: free[at], rhs });
    }
    for _ in 0..200 {
        let term = Term::single(random.below(wires) as u16, *random.pick(&shifts));
        system.others[ZERO].push(vec![vec![term]]);
    }
    system
}

/// Definitions that name one another at random distances.
fn definitions(random: &mut Random, count: usize) -> System {
    let mut draft = Draft::new(8);
    let shifts = palette(random, 2, 3);
    let reach = random.between(1, 60);
    for _ in 0..count {
        let wires = draft.wires();
        let term = |random: &mut Random| {
            let wire = wires - 1 - random.below(wires.min(reach));
            Term::single(wire as u16, if random.percent(70) { 0 } else { *random.pick(&shifts) })
        };
        let rhs = (0..random.between(1, 2)).map(|_| term(random)).collect();
        draft.define(rhs);
    }
    for _ in 0..100 {
        let term = Term::plain(random.below(draft.wires()) as u16);
        draft.zero(vec![term]);
    }
    draft.shuffled(random)
}

/// Constraints of all kinds over a few definitions.
fn others(random: &mut Random, count: usize) -> System {
    let mut draft = Draft::new(8);
    let shifts = palette(random, 2, 3);
    for wire in 0..20 {
        draft.define(vec![Term::single(wire % 8, *random.pick(&shifts)), Term::plain(wire)]);
    }
    for _ in 0..count {
        let term = Term::plain(random.below(draft.wires()) as u16);
        if random.percent(50) {
            draft.zero(vec![term]);
        } else {
            draft.others.push((AND, vec![vec![term], vec![], vec![term]]));
        }
    }
    draft.shuffled(random)
}

/// A few definitions with very many terms.
fn terms(random: &mut Random, count: usize) -> System {
    let mut draft = Draft::new(40);
    let in_zero = random.between(1, 6);
    let first = random.between(1, 4000);
    let sizes = [first, count - in_zero - first];
    for size in sizes {
        let rhs = (0..size).map(|_| Term::plain(random.below(40) as u16)).collect();
        draft.define(rhs);
    }
    let in_zero = (0..in_zero).map(|_| Term::plain(random.between(40, 41) as u16)).collect();
    draft.zero(in_zero);
    draft.shuffled(random)
}

/// One straight chain: the greatest depth.
fn straight(random: &mut Random, count: usize) -> System {
    let mut draft = Draft::new(2);
    let mut below = 0;
    let spread = random.percent(50);
    for _ in 0..count {
        let mut rhs = vec![Term::plain(below)];
        if spread && random.percent(50) {
            rhs.push(Term::plain(1));
        }
        below = draft.define(rhs);
    }
    draft.zero(vec![Term::plain(below)]);
    draft.shuffled(random)
}

/// One wire read by all but one term: the most uses of one definition.
fn fan(random: &mut Random, over: usize) -> System {
    let mut draft = Draft::new(2);
    let shift = *random.pick(&[0, 1, 65]);
    let wire = draft.define(vec![Term::single(0, shift)]);
    let mut left = MAX_TERMS - 1 + over;
    while left > 0 {
        let uses = left.min(random.between(1, 500));
        draft.zero(vec![Term::plain(wire); uses]);
        left -= uses;
    }
    draft.shuffled(random)
}

/// Results of exactly the fullest room, or one more: of `fusereport` or of any store.
pub fn room(random: &mut Random) -> System {
    let room = if random.percent(50) { 4096 } else { MAX_WRITTEN };
    let over = random.below(2);
    // From 4 on, even the greater room is filled by fewer terms than a system may have.
    let terms = 1 << random.between(2, 5);
    let mut draft = Draft::new(5);
    let rhs = (0..terms).map(|at| Term::plain(at % 5)).collect();
    let wire = draft.define(rhs);
    let per_zero = 64.min(room / terms as usize);
    for _ in 0..room / terms as usize / per_zero {
        draft.zero(vec![Term::plain(wire); per_zero]);
    }
    let (_, last) = draft.others.last_mut().expect("the room takes a constraint");
    last[0].extend(vec![Term::plain(0); over]);
    draft.shuffled(random)
}
