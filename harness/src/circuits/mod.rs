//! Real circuits, lowered gate by gate as binius64 does: a shift or an xor becomes a Linear definition, an and, an addition or a comparison
//! an And over shifted operands, a multiplication an Imul or a Bmul, an equality a Zero. binius64's gates are not among the seven files, so
//! which constraints a gate gets is written here and not compared.
//!
//! A circuit is built at concrete inputs and keeps every wire's word, so that its constraints can be evaluated. Its system is the same at
//! all inputs.

pub mod blake;
pub mod ghash;
pub mod keccak;
pub mod median;
pub mod multiply;
pub mod sha256;

use std::collections::HashMap;

use crate::{
    evaluate::{field_product, value, whole},
    house::is_full,
    oracle,
    outcome::Outcome,
    random::Random,
    rules::shift::{ROTR, ROTR32, SAR, SLL, SLL32, SLR, SRL32, shift},
    system::{AND, BMUL, Definition, IMUL, MAX_WRITTEN, Operand, System, Term, ZERO},
};

/// A wire of a circuit.
#[derive(Copy, Clone, Debug, PartialEq, Eq)]
pub struct Wire(pub u16);

impl Wire {
    fn plain(self) -> Term {
        Term::plain(self.0)
    }

    fn by(self, variant: u16, amount: u32) -> Term {
        Term::single(self.0, shift(variant, amount as u16))
    }
}

#[derive(Default)]
pub struct Circuit {
    pub system: System,
    pub words: Vec<u64>,
    pub outputs: Vec<Wire>,
    /// What a plain computation gives for the outputs.
    pub expected: Vec<u64>,
    constants: HashMap<u64, Wire>,
}

impl Circuit {
    /// A wire that nothing defines, with its word.
    pub fn input(&mut self, word: u64) -> Wire {
        let wire = Wire(self.words.len() as u16);
        self.words.push(word);
        self.system.wires = self.words.len();
        wire
    }

    pub fn inputs(&mut self, words: &[u64]) -> Vec<Wire> {
        words.iter().map(|&word| self.input(word)).collect()
    }

    /// One wire for each constant, however often it is named.
    pub fn constant(&mut self, word: u64) -> Wire {
        if let Some(&wire) = self.constants.get(&word) {
            return wire;
        }
        let wire = self.input(word);
        self.constants.insert(word, wire);
        wire
    }

    pub fn word(&self, wire: Wire) -> u64 {
        self.words[usize::from(wire.0)]
    }

    fn value(&self, operand: &Operand) -> u64 {
        value(operand, &self.words)
    }

    fn linear(&mut self, rhs: Operand) -> Wire {
        let wire = self.input(self.value(&rhs));
        self.system.linears.push(Definition { dst: wire.0, rhs });
        wire
    }

    pub fn xor(&mut self, wires: &[Wire]) -> Wire {
        self.linear(wires.iter().map(|wire| wire.plain()).collect())
    }

    pub fn not(&mut self, wire: Wire) -> Wire {
        let ones = self.constant(u64::MAX);
        self.xor(&[wire, ones])
    }

    pub fn rotr(&mut self, wire: Wire, amount: u32) -> Wire {
        self.linear(vec![wire.by(ROTR, amount)])
    }

    pub fn rotl(&mut self, wire: Wire, amount: u32) -> Wire {
        self.rotr(wire, (64 - amount) % 64)
    }

    pub fn shl(&mut self, wire: Wire, amount: u32) -> Wire {
        self.linear(vec![wire.by(SLL, amount)])
    }

    pub fn shr(&mut self, wire: Wire, amount: u32) -> Wire {
        self.linear(vec![wire.by(SLR, amount)])
    }

    pub fn sar(&mut self, wire: Wire, amount: u32) -> Wire {
        self.linear(vec![wire.by(SAR, amount)])
    }

    pub fn rotr32(&mut self, wire: Wire, amount: u32) -> Wire {
        self.linear(vec![wire.by(ROTR32, amount)])
    }

    pub fn srl32(&mut self, wire: Wire, amount: u32) -> Wire {
        self.linear(vec![wire.by(SRL32, amount)])
    }

    pub fn and(&mut self, a: Wire, b: Wire) -> Wire {
        let c = self.input(self.word(a) & self.word(b));
        self.push(AND, vec![vec![a.plain()], vec![b.plain()], vec![c.plain()]]);
        c
    }

    /// (a and b) xor w, in one And.
    pub fn and_xor(&mut self, a: Wire, b: Wire, w: Wire) -> Wire {
        let out = self.input(self.word(a) & self.word(b) ^ self.word(w));
        self.push(AND, vec![vec![a.plain()], vec![b.plain()], vec![w.plain(), out.plain()]]);
        out
    }

    /// Sums of the 32-bit halves apart.
    pub fn add32(&mut self, a: Wire, b: Wire) -> Wire {
        let (x, y) = (self.word(a), self.word(b));
        let low = (x as u32).wrapping_add(y as u32);
        let high = ((x >> 32) as u32).wrapping_add((y >> 32) as u32);
        let sum = u64::from(high) << 32 | u64::from(low);
        let carries = self.input(x & y | (x ^ y) & !sum);
        let carried = vec![carries.by(SLL32, 1)];
        self.push_carry(a.plain(), b.plain(), carries, &carried);
        self.linear([vec![a.plain(), b.plain()], carried].concat())
    }

    /// A 64-bit sum and its carries, the carry in being the top bit of `carry`, if there is one.
    pub fn add(&mut self, a: Wire, b: Wire, carry: Option<Wire>) -> (Wire, Wire) {
        let (x, y) = (self.word(a), self.word(b));
        let carry_in = carry.map_or(0, |carry| self.word(carry) >> 63);
        let sum = x.wrapping_add(y).wrapping_add(carry_in);
        let carries = self.input(x & y | (x ^ y) & !sum);
        let mut carried = vec![carries.by(SLL, 1)];
        carried.extend(carry.map(|carry| carry.by(SLR, 63)));
        self.push_carry(a.plain(), b.plain(), carries, &carried);
        let sum = self.linear([vec![a.plain(), b.plain()], carried].concat());
        (sum, carries)
    }

    /// A word whose top bit says whether a is below b: the borrows of a - b.
    pub fn below(&mut self, a: Wire, b: Wire) -> Wire {
        let (x, y) = (self.word(a), self.word(b));
        let difference = x.wrapping_sub(y);
        let borrows = self.input(!x & y | !(x ^ y) & difference);
        let ones = self.constant(u64::MAX);
        let borrowed = vec![borrows.by(SLL, 1)];
        let left = [vec![a.plain(), ones.plain()], borrowed.clone()].concat();
        let right = [vec![b.plain()], borrowed.clone()].concat();
        let both = [vec![borrows.plain()], borrowed].concat();
        self.push(AND, vec![left, right, both]);
        borrows
    }

    /// Carries are where both bits with the carry in are 1, but for the carry itself: (a ^ in) & (b ^ in) = out ^ in.
    fn push_carry(&mut self, a: Term, b: Term, carries: Wire, carried: &[Term]) {
        let with = |term: Term| [&[term], carried].concat();
        self.push(AND, vec![with(a), with(b), with(carries.plain())]);
    }

    /// The 128-bit product, high and low word. An And fixes the low bit, which the product modulo 2^128 - 1 leaves open.
    pub fn multiply(&mut self, a: Wire, b: Wire) -> (Wire, Wire) {
        let product = u128::from(self.word(a)) * u128::from(self.word(b));
        let high = self.input((product >> 64) as u64);
        let low = self.input(product as u64);
        let operands = [a, b, high, low].map(|wire| vec![wire.plain()]);
        self.push(IMUL, operands.to_vec());
        let low_bits = [a, b, low].map(|wire| vec![wire.by(SLL, 63)]);
        self.push(AND, low_bits.to_vec());
        (high, low)
    }

    /// The product in the field of GHASH, of elements as low and high word.
    pub fn field_multiply(&mut self, a: [Wire; 2], b: [Wire; 2]) -> [Wire; 2] {
        let element = |[low, high]: [Wire; 2]| whole(self.word(low), self.word(high));
        let product = field_product(element(a), element(b));
        let low = self.input(product as u64);
        let high = self.input((product >> 64) as u64);
        let operands = [a[0], a[1], b[0], b[1], low, high].map(|wire| vec![wire.plain()]);
        self.push(BMUL, operands.to_vec());
        [low, high]
    }

    pub fn assert_equal(&mut self, a: Wire, b: Wire) {
        self.push(ZERO, vec![vec![a.plain(), b.plain()]]);
    }

    /// An output, held equal to an input that has the expected word.
    pub fn output(&mut self, wire: Wire, expected: u64) {
        let public = self.input(expected);
        self.assert_equal(wire, public);
        self.outputs.push(wire);
        self.expected.push(expected);
    }

    fn push(&mut self, kind: usize, constraint: Vec<Operand>) {
        self.system.others[kind].push(constraint);
    }

    pub fn output_words(&self) -> Vec<u64> {
        self.outputs.iter().map(|&wire| self.word(wire)).collect()
    }
}

pub struct Sized {
    pub name: &'static str,
    /// What the size counts.
    pub unit: &'static str,
    /// Builds a circuit of a size at random inputs.
    pub build: fn(usize, &mut Random) -> Circuit,
    /// Past this size the circuit is whole.
    pub most: usize,
}

pub const CIRCUITS: [Sized; 7] = [
    Sized { name: "sha256", unit: "rounds", build: sha256::build, most: 64 },
    Sized { name: "keccak", unit: "rounds", build: keccak::build, most: 24 },
    Sized { name: "blake2b", unit: "rounds", build: blake::build_2b, most: 12 },
    Sized { name: "blake3", unit: "rounds", build: blake::build_3, most: 7 },
    Sized { name: "median", unit: "words", build: median::build, most: 64 },
    Sized { name: "multiply", unit: "limbs", build: multiply::build, most: 64 },
    Sized { name: "ghash", unit: "blocks", build: ghash::build, most: 64 },
];

impl Sized {
    /// The greatest size that 01's limits allow, result store included.
    pub fn greatest(&self) -> usize {
        let fits = |size: &usize| fits(&(self.build)(*size, &mut Random::new(0)).system);
        (1..=self.most).take_while(fits).last().expect("the least size fits")
    }
}

fn fits(system: &System) -> bool {
    system.wires <= usize::from(u16::MAX)
        && !is_full(system)
        && matches!(oracle::fuse(system, 2, MAX_WRITTEN), Outcome::Fused(_))
}
