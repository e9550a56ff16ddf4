//! Systems within 01's limits that are made to be slow, and the processor seconds that the project's own library takes for each.
//!
//! Fusing does little for most terms that it looks at, so what counts is how often it looks: written terms times the definitions that
//! each goes through, uses times terms while deciding, and terms that are passed over each time that a definition is met.

use crate::{
    clock::processor_seconds,
    compare::{Totals, faults_of_all},
    house::Refusal,
    library::Library,
    ours::{Form, Image, Length, Not, Ours, operand_number},
    random::Random,
    rules::shift::{ROTR, ROTR32, SAR, SLL, SLL32, SLR, SRA32, SRL32, shift},
    system::{
        AND, BMUL, Definition, IMUL, MAX_DEFINITIONS, MAX_OTHERS, MAX_TERMS, MAX_WIRES, MAX_WRITTEN, OPERANDS, System,
        Term, ZERO,
    },
    third::Third,
};

/// A slow system: which limit it stands at, and how it is made.
pub struct Slow {
    pub limit: &'static str,
    pub name: &'static str,
    pub make: fn() -> System,
    /// How many cells of its store lie between the terms of its paths; 0 where terms lie one after another, as they are read.
    pub apart: usize,
}

const fn slow(limit: &'static str, name: &'static str, make: fn() -> System) -> Slow {
    Slow { limit, name, make, apart: 0 }
}

/// A place that a cache has room for but a few lines of: 131,072 bytes on.
const APART: usize = 16_384;

impl Slow {
    fn image(&self) -> Image {
        let mut image = Image::of(&(self.make)());
        if self.apart == 0 {
            return image;
        }
        for rhs in image.rhss.iter_mut().filter(|rhs| **rhs as u32 == 1) {
            let term = image.old[(*rhs >> 32) as usize];
            let place = image.old.len() + self.apart - 1;
            image.old.resize(place, 0);
            image.old.push(term);
            *rhs = operand_number(place, 1);
        }
        image
    }
}

/// A system while it is made: wires are numbered as they are asked for.
struct Made(System);

impl Made {
    fn new() -> Self {
        Self(System::new(0))
    }

    fn wire(&mut self) -> u16 {
        self.0.wires += 1;
        (self.0.wires - 1) as u16
    }

    fn define(&mut self, rhs: Vec<Term>) -> u16 {
        let dst = self.wire();
        self.0.linears.push(Definition { dst, rhs });
        dst
    }

    fn zero(&mut self, val: Vec<Term>) {
        self.0.others[ZERO].push(vec![val]);
    }

    /// A straight path of so many definitions of one term down to a wire, each with the shift of its place from below; its topmost wire.
    fn path(&mut self, mut below: u16, length: usize, by: impl Fn(usize) -> u16) -> u16 {
        for place in 0..length {
            below = self.define(vec![Term::single(below, by(place))]);
        }
        below
    }

    /// As many more terms as the limits leave.
    fn terms_left(&self) -> usize {
        MAX_TERMS - self.0.term_count()
    }

    /// A Zero of 128 times a definition of 128 times a wire: 16,384 terms.
    fn square(&mut self, below: Term, over: usize) {
        let many = self.define(vec![below; 128]);
        self.zero(vec![Term::plain(many); 128 + over]);
    }

    fn reversed(mut self) -> System {
        self.0.linears.reverse();
        self.0
    }

    fn done(self) -> System {
        self.0
    }
}

const NO_SHIFT: u16 = 0;

/// 16,384 terms, each through so many definitions of one term, with these shifts.
fn square_path(length: usize, by: impl Fn(usize) -> u16) -> Made {
    let mut made = Made::new();
    let below = made.wire();
    let top = made.path(below, length, by);
    made.square(Term::plain(top), 0);
    made
}

/// The longest path below a square.
const LONGEST: usize = MAX_DEFINITIONS - 1;

/// Shifts of two runs: the topmost rotr32, all below rotr.
fn two_runs(place: usize) -> u16 {
    if place == LONGEST - 1 { shift(ROTR32, 5) } else { shift(ROTR, 1) }
}

/// Two definitions that nothing is expanded through and the decision has to look at `half` x `half` sums of.
fn idle_square(made: &mut Made, half: usize, uses: impl Fn(usize) -> u16, terms: impl Fn(usize) -> u16) {
    let below = made.wire();
    let read = made.define((0..half).map(|at| Term::single(below, terms(at))).collect());
    made.define((0..half).map(|at| Term::single(read, uses(at))).collect());
}

fn uses_and_terms(uses: fn(&mut Random) -> u16, terms: fn(&mut Random) -> u16) -> System {
    let mut random = Random::new(7);
    let mut made = Made::new();
    let below = made.wire();
    let half = MAX_TERMS / 2;
    let read = made.define((0..half).map(|_| Term::single(below, terms(&mut random))).collect());
    made.zero((0..half).map(|_| Term::single(read, uses(&mut random))).collect());
    made.done()
}

fn of(random: &mut Random, variants: &[u16]) -> u16 {
    let variant = *random.pick(variants);
    shift(variant, random.below(crate::rules::shift::width(variant).into()) as u16)
}

/// Zero of 128 x (1, slr 40); 1 = 128 x 2; 2 = many x 3, and once 4; 3 = (5, slr 30): terms that are passed over 16,384 times.
fn passed_over(by: impl Fn(usize) -> u16) -> System {
    let mut made = Made::new();
    let [five, four] = [made.wire(), made.wire()];
    let three = made.define(vec![Term::single(five, shift(SLR, 30))]);
    let passed = MAX_TERMS - 2 - 2 * 128;
    let mut rhs: Vec<Term> = (0..passed).map(|at| Term::single(three, by(at))).collect();
    rhs.push(Term::plain(four));
    let two = made.define(rhs);
    let one = made.define(vec![Term::plain(two); 128]);
    made.zero(vec![Term::single(one, shift(SLR, 40)); 128]);
    made.done()
}

/// The same in two runs, where definitions of many terms may be read but once: between them stand definitions of one term, read often.
fn passed_over_in_two() -> System {
    let mut made = Made::new();
    let [five, four] = [made.wire(), made.wire()];
    let three = made.define(vec![Term::single(five, shift(SLL, 30))]);
    let passed = MAX_TERMS - 8 - 2 * 128;
    let mut rhs = vec![Term::plain(three); passed];
    rhs.push(Term::plain(four));
    let mut below = made.define(rhs);
    for _ in 0..2 {
        let alone = made.define(vec![Term::plain(below)]);
        below = made.define(vec![Term::plain(alone); 128]);
    }
    let top = made.define(vec![Term::single(below, shift(SLL, 20))]);
    made.zero(vec![Term::single(top, shift(SLL32, 20))]);
    made.done()
}

/// Levels of `width` definitions, each naming `terms` of the next level.
fn levels(count: usize, width: usize, terms: usize, by: fn(usize) -> u16) -> Made {
    let mut made = Made::new();
    let mut below: Vec<u16> = (0..width).map(|_| made.wire()).collect();
    for level in 0..count {
        let next = (0..width).map(|at| {
            let rhs = (0..terms).map(|term| Term::single(below[(at + term * 3) % width], by(level + term)));
            made.define(rhs.collect())
        });
        below = next.collect();
    }
    for wire in below {
        made.zero(vec![Term::plain(wire)]);
    }
    made
}

/// Every definition of one path is read by a constraint of its own, so often.
fn read_all_along(made: &mut Made, length: usize, times: usize, by: fn(usize) -> u16) {
    let mut below = made.wire();
    for place in 0..length {
        below = made.define(vec![Term::single(below, by(place))]);
        made.zero(vec![Term::plain(below); times]);
    }
}

/// As many constraints of a kind as there may be, each operand with a term of the wire.
fn rows_of(made: &mut Made, kind: usize, rows: usize, wire: u16) {
    for _ in 0..rows {
        made.0.others[kind].push(vec![vec![Term::plain(wire)]; OPERANDS[kind]]);
    }
}

fn with_all_wires(mut made: Made) -> System {
    made.0.wires = MAX_WIRES;
    made.done()
}

pub const SLOW: [Slow; 49] = [
    // Named in the documents.
    slow("known", "expansion that never ends", || {
        let mut made = Made::new();
        let below = made.wire();
        let mut wire = made.define(vec![Term::single(below, shift(SLL, 40))]);
        for _ in 0..6 {
            wire = made.define(vec![Term::plain(wire); 1000]);
        }
        made.zero(vec![Term::single(wire, shift(SLL, 40))]);
        made.done()
    }),
    slow("known", "expansion that never ends, in two runs", || {
        let mut made = Made::new();
        let below = made.wire();
        let mut wire = made.define(vec![Term::single(below, shift(SLL, 30))]);
        for _ in 0..4 {
            let many = made.define(vec![Term::plain(wire); 1000]);
            wire = made.define(vec![Term::plain(many)]);
        }
        let top = made.define(vec![Term::single(wire, shift(SLL, 20))]);
        made.zero(vec![Term::single(top, shift(SLL32, 20))]);
        made.done()
    }),
    slow("known", "terms passed over", || passed_over(|_| NO_SHIFT)),
    slow("known", "terms passed over, identities of any variant", || passed_over(|at| shift((at % 8) as u16, 0))),
    slow("known", "16,384 terms through 1,000 definitions", || square_path(1000, |_| NO_SHIFT).done()),
    slow("known", "7,000 terms through 1,000 definitions", || {
        let mut made = Made::new();
        let below = made.wire();
        let top = made.path(below, 1000, |_| NO_SHIFT);
        made.zero(vec![Term::plain(top); 7000]);
        made.done()
    }),
    slow("known", "the same, each with another shift", || {
        let mut made = Made::new();
        let below = made.wire();
        let top = made.path(below, 1000, |_| NO_SHIFT);
        let val = (0..7000).map(|at| Term::single(top, shift((at % 8) as u16, (at / 8 % 2) as u16)));
        made.zero(val.collect());
        made.done()
    }),
    slow("known", "1,000 definitions of two terms", || {
        let mut made = Made::new();
        let [below, beside] = [made.wire(), made.wire()];
        let mut top = below;
        for _ in 0..1000 {
            top = made.define(vec![Term::plain(top), Term::plain(beside)]);
        }
        made.zero(vec![Term::plain(top)]);
        made.done()
    }),
    slow("known", "4,096 uses of 4,096 terms, unshifted", || uses_and_terms(|_| 0, |_| 0)),
    slow("known", "4,096 uses of 4,096 terms, sll 1", || uses_and_terms(|_| 1, |_| 1)),
    slow("known", "4,096 uses of 4,096 terms, sll, slr, sar", || {
        uses_and_terms(|random| of(random, &[SLL, SLR, SAR]), |random| of(random, &[SLL, SLR, SAR]))
    }),
    slow("known", "4,096 uses of 4,096 terms, sll and sll or slr", || {
        uses_and_terms(|random| of(random, &[SLL]), |random| of(random, &[SLL, SLR]))
    }),
    // Wires.
    slow("wires", "all wires in one Zero, twice", || {
        let mut made = Made::new();
        for _ in 0..MAX_WIRES - 1 {
            made.wire();
        }
        let wire = made.define(vec![Term::plain(0)]);
        let left = made.terms_left() as u16;
        made.zero((0..left).map(|at| Term::plain(at % (wire + 1))).collect());
        made.done()
    }),
    slow("wires", "a path over the highest wires, listed from its top", || {
        let mut made = Made::new();
        for _ in 0..MAX_WIRES - MAX_DEFINITIONS {
            made.wire();
        }
        let top = made.path(0, MAX_DEFINITIONS, |_| NO_SHIFT);
        let left = made.terms_left();
        made.zero(vec![Term::plain(top); left]);
        made.reversed()
    }),
    slow("wires", "every definition over seven wires of its own, all committed", || {
        let mut made = Made::new();
        let inputs: Vec<u16> = (0..MAX_WIRES - MAX_DEFINITIONS).map(|_| made.wire()).collect();
        for at in 0..MAX_DEFINITIONS {
            let rhs = (0..6).map(|term| Term::single(inputs[(6 * at + term) % inputs.len()], shift(SLR, 1)));
            let wire = made.define(rhs.collect());
            if at < MAX_OTHERS {
                made.zero(vec![Term::single(wire, shift(SLL, 1)), Term::single(wire, shift(SAR, 1))]);
            }
        }
        made.done()
    }),
    slow("wires", "definitions spread over all wires, each read by the next eight", || {
        let mut random = Random::new(3);
        let mut names: Vec<u16> = (0..MAX_WIRES as u16).collect();
        random.shuffle(&mut names);
        let mut system = System::new(MAX_WIRES);
        for at in 0..MAX_DEFINITIONS {
            let rhs = (1..=7).map(|back| Term::plain(names[if back <= at { at - back } else { 3000 + back }]));
            system.linears.push(Definition { dst: names[at], rhs: rhs.collect() });
        }
        system.others[ZERO].push(vec![vec![Term::plain(names[MAX_DEFINITIONS - 1])]]);
        system
    }),
    slow("wires", "16,384 terms through the longest path, all wires", || {
        with_all_wires(square_path(LONGEST, |_| NO_SHIFT))
    }),
    // Definitions.
    slow("definitions", "none is read, each names seven before it", || {
        let mut made = Made::new();
        let below = made.wire();
        for at in 0..MAX_DEFINITIONS as u16 {
            made.define((1..=7).map(|back| Term::plain(if back <= at { at + 1 - back } else { below })).collect());
        }
        made.done()
    }),
    slow("definitions", "each needs two runs", || {
        let mut made = Made::new();
        let below = made.wire();
        let top = made.path(below, MAX_DEFINITIONS, |place| if place % 2 == 0 { shift(SLL, 1) } else { shift(SLR, 1) });
        let left = made.terms_left();
        made.zero(vec![Term::single(top, shift(SAR, 1)); left]);
        made.done()
    }),
    slow("definitions", "each is the xor of the two before it", || {
        let mut made = Made::new();
        let [mut first, mut second] = [made.wire(), made.wire()];
        for _ in 0..MAX_DEFINITIONS {
            let third = made.define(vec![Term::plain(first), Term::plain(second)]);
            [first, second] = [second, third];
        }
        made.zero(vec![Term::plain(second)]);
        made.done()
    }),
    slow("definitions", "32 levels of 32, seven terms each", || levels(32, 32, 7, |_| NO_SHIFT).done()),
    slow("definitions", "each is read seven times by a Zero of its own", || {
        let mut made = Made::new();
        read_all_along(&mut made, MAX_DEFINITIONS, 7, |_| shift(ROTR, 1));
        made.done()
    }),
    // Others.
    slow("others", "1,024 Zeros of six terms through 1,000 definitions", || {
        let mut made = Made::new();
        let below = made.wire();
        let top = made.path(below, MAX_DEFINITIONS, |_| shift(ROTR, 1));
        for _ in 0..MAX_OTHERS {
            made.zero(vec![Term::plain(top); 7]);
        }
        made.done()
    }),
    slow("others", "1,024 Bmuls through 1,024 definitions", || {
        let mut made = Made::new();
        let below = made.wire();
        let top = made.path(below, MAX_DEFINITIONS, |_| shift(ROTR32, 1));
        rows_of(&mut made, BMUL, MAX_OTHERS, top);
        made.done()
    }),
    slow("others", "1,024 Bmuls of a committed wire", || {
        let mut made = Made::new();
        let below = made.wire();
        let top = made.path(below, MAX_DEFINITIONS, |place| shift([SLL, SLR, SAR][place % 3], 1));
        rows_of(&mut made, BMUL, MAX_OTHERS, top);
        made.done()
    }),
    slow("others", "1,024 Imuls, each operand another definition", || {
        let mut made = Made::new();
        let below = made.wire();
        let wires: Vec<u16> = (0..MAX_DEFINITIONS).map(|_| made.define(vec![Term::plain(below); 4])).collect();
        for at in 0..MAX_OTHERS {
            let operands = (0..4).map(|operand| vec![Term::plain(wires[(at + 256 * operand) % wires.len()])]);
            made.0.others[IMUL].push(operands.collect());
        }
        made.done()
    }),
    slow("others", "1,024 Ands, 256 of each operand through a path of its own", || {
        let mut made = Made::new();
        let below = made.wire();
        let tops: Vec<u16> = (0..4).map(|_| made.path(below, MAX_DEFINITIONS / 4, |_| shift(ROTR, 3))).collect();
        for at in 0..MAX_OTHERS {
            let operand = vec![Term::plain(tops[at % 4]), Term::plain(tops[(at + 1) % 4])];
            made.0.others[AND].push(vec![operand.clone(), operand, vec![Term::plain(tops[0])]]);
        }
        made.done()
    }),
    // Terms read.
    slow("terms read", "terms passed over, each with another shift", || passed_over(|at| shift(SLR, (at % 24) as u16))),
    slow("terms read", "terms passed over in two runs", passed_over_in_two),
    slow("terms read", "4,096 uses of 4,096 terms, any shifts", || {
        let any = |random: &mut Random| of(random, &[SLL, SLR, SAR, ROTR, SLL32, SRL32, SRA32, ROTR32]);
        uses_and_terms(any, any)
    }),
    slow("terms read", "4,096 uses of 4,096 terms, rotr and rotr32", || {
        uses_and_terms(|random| of(random, &[ROTR]), |random| of(random, &[ROTR, ROTR32]))
    }),
    slow("terms read", "three definitions of 2,730 terms in a row, nothing read", || {
        let mut made = Made::new();
        let mut below = made.wire();
        for _ in 0..3 {
            below = made.define((0..2730).map(|at| Term::single(below, shift(SLL, (at % 21) as u16))).collect());
        }
        made.done()
    }),
    // Terms written.
    slow("terms written", "16,384 terms through 1,023 definitions", || square_path(LONGEST, |_| NO_SHIFT).done()),
    slow("terms written", "the same, rotr 1 on each", || square_path(LONGEST, |_| shift(ROTR, 1)).done()),
    slow("terms written", "the same, rotr32 1 on each", || square_path(LONGEST, |_| shift(ROTR32, 1)).done()),
    slow("terms written", "the same in two runs", || square_path(LONGEST, two_runs).done()),
    slow("terms written", "one term more: refused", || {
        let mut made = Made::new();
        let below = made.wire();
        let top = made.path(below, LONGEST, |_| shift(ROTR, 1));
        made.square(Term::plain(top), 1);
        made.done()
    }),
    slow("terms written", "the same in two runs, and a decision over all terms that are left", || {
        let mut made = Made::new();
        let below = made.wire();
        let length = LONGEST - 2;
        let top = made.path(below, length, |place| if place == length - 1 { shift(SLL, 5) } else { shift(ROTR, 1) });
        made.square(Term::plain(top), 0);
        let half = made.terms_left() / 2;
        idle_square(&mut made, half, |at| shift(SLL, (at % 32) as u16), |at| shift(SLL, (at % 31) as u16));
        made.done()
    }),
    slow("terms written", "through 1,016 definitions below terms that are passed over", || {
        let mut made = Made::new();
        let [below, five] = [made.wire(), made.wire()];
        let dead = made.define(vec![Term::single(five, shift(SLR, 30))]);
        let mut top = made.path(below, 1015, |_| shift(ROTR, 1));
        // Definitions of more than one term stay only down to depth 6.
        for _ in 0..4 {
            let passed = (MAX_TERMS - 1016 - 300) / 4;
            let mut rhs = vec![Term::plain(dead); passed];
            rhs.push(Term::plain(top));
            top = made.define(rhs);
        }
        let many = made.define(vec![Term::plain(top); 128]);
        made.zero(vec![Term::single(many, shift(SLR, 40)); 128]);
        made.done()
    }),
    slow("terms written", "1,024 Zeros of four terms, four each", || {
        let mut made = Made::new();
        let below = made.wire();
        let wire = made.define(vec![Term::plain(below); 4]);
        for _ in 0..MAX_OTHERS {
            made.zero(vec![Term::plain(wire); 4]);
        }
        made.done()
    }),
    // Depth.
    slow("depth", "one term through 1,024 definitions", || {
        let mut made = Made::new();
        let below = made.wire();
        let top = made.path(below, MAX_DEFINITIONS, |place| shift(ROTR, (place % 63) as u16 + 1));
        made.zero(vec![Term::plain(top)]);
        made.reversed()
    }),
    slow("depth", "a circle of 1,024 definitions", || {
        let mut made = Made::new();
        let below = made.wire();
        let top = made.path(below, MAX_DEFINITIONS, |_| NO_SHIFT);
        made.zero(vec![Term::plain(top)]);
        made.0.linears[0].rhs[0].wire = top;
        made.done()
    }),
    slow("depth", "each eighth definition commits, two terms each, seven uses of each", || {
        let mut made = Made::new();
        let [below, beside] = [made.wire(), made.wire()];
        let mut top = below;
        for at in 0..MAX_DEFINITIONS {
            top = made.define(vec![Term::plain(top), Term::plain(beside)]);
            if at < MAX_OTHERS {
                made.zero(vec![Term::plain(top); 3]);
            }
        }
        made.done()
    }),
    slow("depth", "two paths of 511, by turns rotr and rotr32", || {
        let mut made = Made::new();
        let below = made.wire();
        let tops = [ROTR, ROTR32].map(|variant| made.path(below, 511, |_| shift(variant, 1)));
        let many = made.define((0..128).map(|at| Term::plain(tops[at % 2])).collect());
        made.zero(vec![Term::plain(many); 128]);
        made.done()
    }),
    slow("depth", "8,192 terms less a path, through all of it", || {
        let mut made = Made::new();
        let below = made.wire();
        let top = made.path(below, MAX_DEFINITIONS, |_| shift(ROTR, 1));
        let left = made.terms_left();
        made.zero(vec![Term::single(top, shift(ROTR32, 5)); left]);
        made.done()
    }),
    slow("depth", "a path of sar 63", || {
        let mut made = Made::new();
        let below = made.wire();
        let top = made.path(below, MAX_DEFINITIONS, |_| shift(SAR, 63));
        let left = made.terms_left();
        made.zero(vec![Term::single(top, shift(SAR, 63)); left]);
        made.done()
    }),
    slow("depth", "a path whose shifts are sll 1 while one run lasts", || {
        let mut made = Made::new();
        let below = made.wire();
        let top = made.path(below, LONGEST, |place| if place % 16 == 0 { shift(SLL, 1) } else { NO_SHIFT });
        made.square(Term::plain(top), 0);
        made.done()
    }),
    // In memory, with the terms of paths laid where they drive one another out of the caches. No file is read so.
    Slow {
        limit: "layout",
        name: "16,384 terms through 1,023 definitions, 131,072 bytes apart",
        make: || square_path(LONGEST, |_| NO_SHIFT).done(),
        apart: APART,
    },
    Slow {
        limit: "layout",
        name: "the same in two runs",
        make: || square_path(LONGEST, two_runs).done(),
        apart: APART,
    },
];

/// What fusing a system comes to and takes.
pub struct Taken {
    pub answer: Refusal,
    pub written: usize,
    pub seconds: f64,
}

/// Fuses an image, and gives the best seconds of some calls.
pub fn taken(library: &Library, image: &Image, slots: u64, repeats: usize) -> Taken {
    let mut ours = Ours::new(library, Form::Numbers);
    let mut best = Taken { answer: 0, written: 0, seconds: f64::MAX };
    for _ in 0..repeats {
        ours.lay_fuse(image, MAX_WRITTEN, MAX_WIRES, Length::Full, 5);
        let start = processor_seconds();
        let answer = ours.call_fuse(image, slots);
        let seconds = processor_seconds() - start;
        let given = ours.fused(image, answer);
        assert!(!matches!(given, Err(Not::Spoilt(_))), "{given:?}");
        let written = given.map_or(0, |fused| fused.written);
        best = Taken { answer, written, seconds: seconds.min(best.seconds) };
    }
    best
}

/// Prints a row for each system and slot number, and the slowest; false if one takes more than a second.
pub fn run(library: &Library, repeats: usize) -> bool {
    println!("limit | system | slots | answer | terms written | seconds");
    let mut slowest = (0.0, String::new());
    for slow in &SLOW {
        let Slow { limit, name, .. } = slow;
        let image = slow.image();
        for slots in 1..=2 {
            let Taken { answer, written, seconds } = taken(library, &image, slots, repeats);
            println!("{limit} | {name} | {slots} | {answer} | {written} | {seconds:.4}");
            if seconds > slowest.0 {
                slowest = (seconds, format!("{limit}: {name}, slots {slots}"));
            }
        }
    }
    println!("systems {} slowest {:.4} {}", SLOW.len(), slowest.0, slowest.1);
    slowest.0 <= 1.0
}

/// Compares these systems as `compare` does generated ones.
pub fn compare() -> Totals {
    let start = std::time::Instant::now();
    let mut third = Third::linked();
    let mut totals = Totals::default();
    for (seed, Slow { limit, name, make, .. }) in SLOW.iter().enumerate() {
        totals.systems += 1;
        for fault in faults_of_all(&make(), seed as u64, third.as_mut(), &mut totals) {
            totals.differences += 1;
            println!("difference: {limit}: {name}: {fault}");
        }
    }
    totals.ours = third.as_mut().map(Third::take_calls).unwrap_or_default();
    totals.seconds = start.elapsed().as_secs_f64();
    totals
}
