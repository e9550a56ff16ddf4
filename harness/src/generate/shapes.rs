//! Random graphs of definitions, by shape.

use crate::{
    random::Random,
    rules::shift::{ROTR, ROTR32, width},
    system::{AND, BMUL, Constraint, Definition, IMUL, OPERANDS, Operand, System, Term, ZERO},
};

/// What a random system is drawn from. Pairs are the least and the greatest.
pub struct Shape {
    pub undefined: (usize, usize),
    pub definitions: (usize, usize),
    pub others: (usize, usize),
    /// Terms of a definition, and of another constraint's operand.
    pub rhs: (usize, usize),
    pub operand: (usize, usize),
    /// How often, in a hundred, a term names a defined wire where it can.
    pub defined: usize,
    /// How far below a definition the definitions are that it names.
    pub reach: usize,
    /// The shifts that terms carry.
    pub palette: Vec<u16>,
    /// How often a shift is the canonical identity.
    pub plain: usize,
    /// How often an identity is spelt in another way, in either slot.
    pub odd: usize,
    /// How often a term of an undefined wire in another constraint has an outer shift.
    pub doubled: usize,
}

impl Shape {
    /// A small system of few variants.
    pub fn small(random: &mut Random) -> Self {
        Self {
            undefined: (1, 4),
            definitions: (1, 8),
            others: (1, 4),
            rhs: (1, 4),
            operand: (0, 3),
            defined: 65,
            reach: 8,
            palette: palette(random, 3, 5),
            plain: 40,
            odd: 5,
            doubled: 5,
        }
    }
}

/// Amounts at which something changes: halves, widths, and sums that meet them.
const AMOUNTS: [u16; 16] = [1, 2, 5, 7, 15, 16, 17, 24, 30, 31, 32, 33, 40, 48, 62, 63];

/// Some shifts of a few variants.
pub fn palette(random: &mut Random, variants: usize, shifts: usize) -> Vec<u16> {
    let chosen: Vec<u16> = (0..random.between(1, variants)).map(|_| random.below(8) as u16).collect();
    (0..random.between(1, shifts)).map(|_| any_amount(random, &chosen)).collect()
}

fn any_amount(random: &mut Random, variants: &[u16]) -> u16 {
    let variant = *random.pick(variants);
    let amount = if random.percent(80) { *random.pick(&AMOUNTS) } else { random.between(1, 63) as u16 };
    64 * variant + amount.min(width(variant) - 1)
}

fn any_shift(random: &mut Random) -> u16 {
    any_amount(random, &[0, 1, 2, 3, 4, 5, 6, 7])
}

fn odd_identity(random: &mut Random) -> u16 {
    64 * random.below(8) as u16
}

fn between(random: &mut Random, (least, greatest): (usize, usize)) -> usize {
    random.between(least, greatest)
}

/// A system while it is drawn: undefined wires first, then definitions, each over wires before it.
pub struct Draft {
    pub undefined: usize,
    pub definitions: Vec<Operand>,
    pub others: Vec<(usize, Constraint)>,
}

impl Draft {
    pub fn new(undefined: usize) -> Self {
        Self { undefined, definitions: Vec::new(), others: Vec::new() }
    }

    /// The wire of the next definition.
    pub fn define(&mut self, rhs: Operand) -> u16 {
        self.definitions.push(rhs);
        (self.wires() - 1) as u16
    }

    pub fn wires(&self) -> usize {
        self.undefined + self.definitions.len()
    }

    pub fn zero(&mut self, val: Operand) {
        self.others.push((ZERO, vec![val]));
    }

    /// The drafted system with its wires renumbered, and its lists shuffled, at random.
    pub fn shuffled(self, random: &mut Random) -> System {
        let spare = random.below(3);
        let mut names: Vec<u16> = (0..(self.wires() + spare) as u16).collect();
        random.shuffle(&mut names);
        let mut system = self.named(&names);
        random.shuffle(&mut system.linears);
        for list in &mut system.others {
            random.shuffle(list);
        }
        system
    }

    /// The drafted system as it stands.
    pub fn plain(self) -> System {
        let names: Vec<u16> = (0..self.wires() as u16).collect();
        self.named(&names)
    }

    fn named(self, names: &[u16]) -> System {
        let rename = |operand: Operand| -> Operand {
            let renamed = operand.into_iter().map(|term| Term { wire: names[usize::from(term.wire)], ..term });
            renamed.collect()
        };
        let mut system = System::new(names.len());
        for (kind, constraint) in self.others {
            system.others[kind].push(constraint.into_iter().map(rename).collect());
        }
        for (position, rhs) in self.definitions.into_iter().enumerate() {
            let dst = names[self.undefined + position];
            system.linears.push(Definition { dst, rhs: rename(rhs) });
        }
        system
    }
}

pub fn draft(random: &mut Random, shape: &Shape) -> Draft {
    let mut draft = Draft::new(between(random, shape.undefined));
    for _ in 0..between(random, shape.definitions) {
        let rhs = operand(random, shape, &draft, shape.rhs);
        let single =
            rhs.into_iter().map(|term| Term { outer: if term.outer % 64 == 0 { term.outer } else { 0 }, ..term });
        let rhs = single.collect();
        draft.define(rhs);
    }
    for _ in 0..between(random, shape.others) {
        let other = other(random, shape, &draft);
        draft.others.push(other);
    }
    draft
}

fn other(random: &mut Random, shape: &Shape, draft: &Draft) -> (usize, Constraint) {
    let kind = *random.pick(&[AND, AND, IMUL, BMUL, ZERO, ZERO]);
    let operands = (0..OPERANDS[kind]).map(|_| operand(random, shape, draft, shape.operand));
    (kind, operands.collect())
}

fn operand(random: &mut Random, shape: &Shape, draft: &Draft, terms: (usize, usize)) -> Operand {
    (0..between(random, terms)).map(|_| term(random, shape, draft)).collect()
}

fn term(random: &mut Random, shape: &Shape, draft: &Draft) -> Term {
    let inner = shift(random, shape);
    let odd = random.percent(shape.odd);
    let outer = if odd { odd_identity(random) } else { 0 };
    let defined = draft.definitions.len();
    if defined > 0 && random.percent(shape.defined) {
        let reached = random.below(defined.min(shape.reach));
        let wire = draft.wires() - 1 - reached;
        return Term::new(wire as u16, inner, outer);
    }
    let wire = random.below(draft.undefined) as u16;
    if random.percent(shape.doubled) {
        return Term::new(wire, inner, any_shift(random));
    }
    Term::new(wire, inner, outer)
}

fn shift(random: &mut Random, shape: &Shape) -> u16 {
    if random.percent(shape.plain) {
        return 0;
    }
    if random.percent(shape.odd) {
        return odd_identity(random);
    }
    *random.pick(&shape.palette)
}

/// Small dense graphs with few variants.
pub fn dense(random: &mut Random) -> System {
    let shape = Shape::small(random);
    draft(random, &shape).shuffled(random)
}

/// Chains around depth 6 to 8, with other uses along them.
pub fn chain(random: &mut Random) -> System {
    let variant = random.below(8) as u16;
    let step = match random.below(10) {
        0..=5 => 0,
        6..=7 => 64 * variant + random.between(1, 4) as u16,
        _ => any_amount(random, &[variant]),
    };
    let mut draft = Draft::new(random.between(1, 3));
    let mut below = Term::single(random.below(draft.undefined) as u16, step);
    for _ in 0..random.between(5, 18) {
        let mut rhs = vec![below];
        // A definition of one term is exempt from the bound on depth.
        for _ in 0..*random.pick(&[0, 1, 1, 1, 2]) {
            rhs.push(Term::plain(random.below(draft.undefined) as u16));
        }
        random.shuffle(&mut rhs);
        let wire = draft.define(rhs);
        below = Term::single(wire, if random.percent(70) { 0 } else { step });
    }
    draft.zero(vec![below]);
    let shape = Shape { palette: vec![step], others: (0, 2), reach: 20, ..Shape::small(random) };
    for _ in 0..between(random, shape.others) {
        let other = other(random, &shape, &draft);
        draft.others.push(other);
    }
    draft.shuffled(random)
}

/// A definition read so often that (terms - 1) x (uses - 1) is around 4 and 5, by one run or by two.
pub fn product(random: &mut Random) -> System {
    let (terms, uses) =
        *random.pick(&[(2, 5), (2, 6), (3, 3), (5, 2), (6, 2), (3, 4), (4, 2), (2, 4), (4, 3), (1, 9), (9, 1)]);
    let inner = palette(random, 1, 2);
    let outer = if random.percent(70) { palette(random, 2, 2) } else { inner.clone() };
    let mut draft = Draft::new(random.between(1, 4));
    let lower = lower_terms(random, &mut draft, &inner, terms);
    let wire = draft.define(lower);
    for _ in 0..uses {
        let shift = if random.percent(70) { *random.pick(&outer) } else { 0 };
        use_of(random, &mut draft, Term::single(wire, shift));
    }
    draft.shuffled(random)
}

fn lower_terms(random: &mut Random, draft: &mut Draft, palette: &[u16], terms: usize) -> Operand {
    (0..terms)
        .map(|_| {
            let wire = random.below(draft.wires()) as u16;
            let shift = if random.percent(60) { *random.pick(palette) } else { 0 };
            if random.percent(20) {
                let copied = draft.define(vec![Term::plain(random.below(draft.undefined) as u16)]);
                return Term::single(copied, shift);
            }
            Term::single(wire, shift)
        })
        .collect()
}

/// One use, in a Zero, in an And that has others, or through a definition that a Zero reads.
fn use_of(random: &mut Random, draft: &mut Draft, term: Term) {
    match random.below(4) {
        0 => draft.zero(vec![term]),
        1 => {
            let other = Term::plain(random.below(draft.undefined) as u16);
            draft.others.push((AND, vec![vec![term], vec![other], vec![]]));
        }
        2 => {
            let through = draft.define(vec![term]);
            draft.zero(vec![Term::plain(through)]);
        }
        _ => match draft.others.last_mut() {
            Some((_, constraint)) => constraint.last_mut().expect("every constraint has an operand").push(term),
            None => draft.zero(vec![term]),
        },
    }
}

/// Uses with different runs, of a definition with more below it.
pub fn join(random: &mut Random) -> System {
    let outer = palette(random, 3, 4);
    let inner = palette(random, 2, 3);
    let mut draft = Draft::new(random.between(1, 3));
    let bottom = draft.define(vec![Term::single(0, *random.pick(&inner)), Term::plain(0)]);
    let rhs = lower_terms(random, &mut draft, &inner, 2);
    let joined = draft.define([rhs, vec![Term::single(bottom, *random.pick(&inner))]].concat());
    for _ in 0..random.between(2, 3) {
        let mut term = Term::single(joined, if random.percent(75) { *random.pick(&outer) } else { 0 });
        for _ in 0..random.below(3) {
            let through = draft.define(vec![term]);
            term = Term::single(through, if random.percent(50) { *random.pick(&outer) } else { 0 });
        }
        use_of(random, &mut draft, term);
    }
    draft.shuffled(random)
}

/// Long shifts of one direction: terms that shift everything out, and definitions that only such terms name.
pub fn drop(random: &mut Random) -> System {
    let variant = *random.pick(&[0, 1, 4, 5, 2, 6]);
    let far = width(variant) / 2 + random.below(8) as u16;
    let shape = Shape {
        palette: vec![64 * variant + far, 64 * variant + far - 8, 64 * variant + 1],
        definitions: (2, 9),
        plain: 35,
        reach: 3,
        ..Shape::small(random)
    };
    draft(random, &shape).shuffled(random)
}

/// Definitions that nothing reads, alone and on top of others.
pub fn dead(random: &mut Random) -> System {
    let shape = Shape { definitions: (2, 12), others: (0, 1), operand: (0, 1), defined: 50, ..Shape::small(random) };
    draft(random, &shape).shuffled(random)
}

/// Identities spelt in all ways, in both slots.
pub fn identity(random: &mut Random) -> System {
    let shape = Shape { odd: 60, plain: 20, palette: palette(random, 2, 2), ..Shape::small(random) };
    draft(random, &shape).shuffled(random)
}

/// Terms with two shifts on undefined wires.
pub fn doubled(random: &mut Random) -> System {
    let shape = Shape { doubled: 70, defined: 40, operand: (1, 4), ..Shape::small(random) };
    draft(random, &shape).shuffled(random)
}

/// A bit of everything.
pub fn mixed(random: &mut Random) -> System {
    let cyclic = vec![64 * ROTR + random.between(1, 63) as u16, 64 * ROTR32 + random.between(1, 31) as u16];
    let shape = Shape {
        undefined: (1, 8),
        definitions: (0, 24),
        others: (0, 8),
        rhs: (1, 5),
        operand: (0, 5),
        defined: random.between(20, 90),
        reach: random.between(1, 24),
        palette: if random.percent(25) { cyclic } else { palette(random, 8, 12) },
        plain: random.between(0, 90),
        odd: 4,
        doubled: 10,
    };
    draft(random, &shape).shuffled(random)
}

/// Hundreds of definitions.
pub fn wide(random: &mut Random) -> System {
    let shape = Shape {
        undefined: (1, 200),
        definitions: (50, 600),
        others: (10, 300),
        rhs: (1, 4),
        operand: (0, 4),
        defined: random.between(20, 80),
        reach: random.between(1, 600),
        palette: palette(random, 4, 8),
        plain: random.between(30, 95),
        odd: 2,
        doubled: 5,
    };
    draft(random, &shape).shuffled(random)
}

/// A straight path of definitions of one term, with any shifts.
pub fn path(random: &mut Random) -> System {
    let mut draft = Draft::new(1);
    let mut below = 0;
    for _ in 0..random.between(1, 4) {
        below = draft.define(vec![Term::single(below, valid_shift(random))]);
    }
    draft.zero(vec![Term::single(below, valid_shift(random))]);
    draft.shuffled(random)
}

fn valid_shift(random: &mut Random) -> u16 {
    let variant = random.below(8) as u16;
    64 * variant + random.below(width(variant).into()) as u16
}
