use crate::{ffi, Refusal, Term, Wire};
use std::fmt;

/// `a & b == c`, bit by bit. `T` is an operand, or an operand's word.
#[derive(Clone, Copy, Debug, PartialEq, Eq, Hash)]
#[allow(missing_docs)]
pub struct And<T> {
    pub a: T,
    pub b: T,
    pub c: T,
}

/// The product of two integers: `a * b` is `hi`, `lo`.
#[derive(Clone, Copy, Debug, PartialEq, Eq, Hash)]
#[allow(missing_docs)]
pub struct Imul<T> {
    pub a: T,
    pub b: T,
    pub hi: T,
    pub lo: T,
}

/// The product of two elements of a binary field, each of two words.
#[derive(Clone, Copy, Debug, PartialEq, Eq, Hash)]
#[allow(missing_docs)]
pub struct Bmul<T> {
    pub a_lo: T,
    pub a_hi: T,
    pub b_lo: T,
    pub b_hi: T,
    pub c_lo: T,
    pub c_hi: T,
}

/// `val == 0`.
#[derive(Clone, Copy, Debug, PartialEq, Eq, Hash)]
#[allow(missing_docs)]
pub struct Zero<T> {
    pub val: T,
}

/// A definition: the wire `dst` has the word of `rhs`.
#[derive(Clone, Copy, Debug, PartialEq, Eq, Hash)]
#[allow(missing_docs)]
pub struct Linear<T> {
    pub dst: Wire,
    pub rhs: T,
}

impl And<u64> {
    /// Whether these words satisfy it.
    pub fn holds(self) -> bool {
        self.a & self.b == self.c
    }
}

impl Zero<u64> {
    /// Whether this word satisfies it.
    pub fn holds(self) -> bool {
        self.val == 0
    }
}

impl Linear<u64> {
    /// Whether the destination has this word.
    pub fn holds(self, assignment: &Assignment) -> bool {
        assignment.get(self.dst) == Some(self.rhs)
    }
}

/// An operand: the xor of its terms.
#[derive(Clone, Copy, PartialEq, Eq, Hash)]
pub struct Operand<'a>(&'a [u64]);

impl<'a> Operand<'a> {
    /// Its terms, in order. Equal terms stand each for itself.
    pub fn terms(self) -> impl DoubleEndedIterator<Item = Term> + ExactSizeIterator + 'a {
        self.0.iter().map(|&t| Term::given(t))
    }

    /// How many terms it has.
    pub fn len(self) -> usize {
        self.0.len()
    }

    /// Whether it has none: its word is 0.
    pub fn is_empty(self) -> bool {
        self.0.is_empty()
    }
}

impl fmt::Display for Operand<'_> {
    fn fmt(&self, f: &mut fmt::Formatter<'_>) -> fmt::Result {
        if self.is_empty() {
            return f.write_str("0");
        }
        for (i, term) in self.terms().enumerate() {
            write!(f, "{}{term}", if i == 0 { "" } else { " ^ " })?;
        }
        Ok(())
    }
}

impl fmt::Debug for Operand<'_> {
    fn fmt(&self, f: &mut fmt::Formatter<'_>) -> fmt::Result {
        fmt::Display::fmt(self, f)
    }
}

/// The numbers of the operands, list by list, and the destinations. Each store is exactly as long as its rows.
#[derive(Clone, Default)]
pub(crate) struct Rows {
    pub wires: usize,
    pub ands: Vec<u64>,
    pub imuls: Vec<u64>,
    pub bmuls: Vec<u64>,
    pub zeros: Vec<u64>,
    pub dsts: Vec<u16>,
    pub rhss: Vec<u64>,
}

impl Rows {
    pub fn operands(&self) -> usize {
        self.ands.len() + self.imuls.len() + self.bmuls.len() + self.zeros.len() + self.rhss.len()
    }
}

/// The five lists of a [`System`](crate::System) or of a [`Fused`](crate::Fused) one, to look at: what a prover is handed.
#[derive(Clone, Copy)]
pub struct Lists<'a> {
    pub(crate) old: &'a [u64],
    pub(crate) new: &'a [u64],
    pub(crate) rows: &'a Rows,
}

impl<'a> Lists<'a> {
    /// The terms of an operand's number: a part of whichever store holds them.
    fn operand(self, number: u64) -> Operand<'a> {
        let start = (number >> 32 & 0x7fff_ffff) as usize;
        let store = if number >> 63 == 1 { self.new } else { self.old };
        Operand(&store[start..start + (number & 0xffff_ffff) as usize])
    }

    /// How many wires there are: numbers from 0 on.
    pub fn wires(self) -> usize {
        self.rows.wires
    }

    /// The And constraints.
    pub fn ands(self) -> impl ExactSizeIterator<Item = And<Operand<'a>>> {
        self.rows.ands.chunks_exact(3).map(move |r| and_of(r, |h| self.operand(h)))
    }

    /// The Imul constraints.
    pub fn imuls(self) -> impl ExactSizeIterator<Item = Imul<Operand<'a>>> {
        self.rows.imuls.chunks_exact(4).map(move |r| imul_of(r, |h| self.operand(h)))
    }

    /// The Bmul constraints.
    pub fn bmuls(self) -> impl ExactSizeIterator<Item = Bmul<Operand<'a>>> {
        self.rows.bmuls.chunks_exact(6).map(move |r| bmul_of(r, |h| self.operand(h)))
    }

    /// The Zero constraints.
    pub fn zeros(self) -> impl ExactSizeIterator<Item = Zero<Operand<'a>>> {
        self.rows.zeros.iter().map(move |&h| Zero { val: self.operand(h) })
    }

    /// The definitions.
    pub fn linears(self) -> impl ExactSizeIterator<Item = Linear<Operand<'a>>> {
        let rows = self.rows;
        rows.dsts.iter().zip(&rows.rhss).map(move |(&d, &h)| Linear { dst: Wire::new(d), rhs: self.operand(h) })
    }

    /// The words of all operands under an assignment, or SIZE.
    pub fn evaluate(self, assignment: &Assignment) -> Result<Values<'a>, Refusal> {
        Ok(Values { rows: self.rows, words: ffi::evaluate(self, &assignment.0)? })
    }

    /// The lists as a house file, or WIDE.
    pub fn write(self) -> Result<Vec<u8>, Refusal> {
        ffi::write(self)
    }
}

/// The same constraints in the same order. Positions in the term stores are not compared.
impl PartialEq for Lists<'_> {
    fn eq(&self, other: &Self) -> bool {
        self.wires() == other.wires()
            && self.ands().eq(other.ands())
            && self.imuls().eq(other.imuls())
            && self.bmuls().eq(other.bmuls())
            && self.zeros().eq(other.zeros())
            && self.linears().eq(other.linears())
    }
}

impl Eq for Lists<'_> {}

impl fmt::Debug for Lists<'_> {
    fn fmt(&self, f: &mut fmt::Formatter<'_>) -> fmt::Result {
        f.debug_struct("Lists")
            .field("wires", &self.wires())
            .field("ands", &self.ands().len())
            .field("imuls", &self.imuls().len())
            .field("bmuls", &self.bmuls().len())
            .field("zeros", &self.zeros().len())
            .field("linears", &self.linears().len())
            .finish()
    }
}

fn and_of<T>(r: &[u64], f: impl Fn(u64) -> T) -> And<T> {
    And { a: f(r[0]), b: f(r[1]), c: f(r[2]) }
}

fn imul_of<T>(r: &[u64], f: impl Fn(u64) -> T) -> Imul<T> {
    Imul { a: f(r[0]), b: f(r[1]), hi: f(r[2]), lo: f(r[3]) }
}

fn bmul_of<T>(r: &[u64], f: impl Fn(u64) -> T) -> Bmul<T> {
    Bmul { a_lo: f(r[0]), a_hi: f(r[1]), b_lo: f(r[2]), b_hi: f(r[3]), c_lo: f(r[4]), c_hi: f(r[5]) }
}

/// A word a wire.
///
/// One word more or less than the system has wires is refused: SIZE.
#[derive(Clone, PartialEq, Eq, Debug)]
pub struct Assignment(pub(crate) Vec<u64>);

impl Assignment {
    /// These words, wire 0 first.
    pub fn new(words: Vec<u64>) -> Assignment {
        Assignment(words)
    }

    /// The word of a wire, or none where there is none.
    pub fn get(&self, wire: Wire) -> Option<u64> {
        self.0.get(usize::from(wire.number())).copied()
    }

    /// All words, wire 0 first.
    pub fn words(&self) -> &[u64] {
        &self.0
    }
}

impl std::ops::Index<Wire> for Assignment {
    type Output = u64;

    fn index(&self, wire: Wire) -> &u64 {
        &self.0[usize::from(wire.number())]
    }
}

impl std::ops::IndexMut<Wire> for Assignment {
    fn index_mut(&mut self, wire: Wire) -> &mut u64 {
        &mut self.0[usize::from(wire.number())]
    }
}

/// The words of all operands under an assignment, row by row.
#[derive(Clone)]
pub struct Values<'a> {
    rows: &'a Rows,
    words: Vec<u64>,
}

impl Values<'_> {
    /// All of them, in the order of the house file: Ands, Imuls, Bmuls, Zeros, right sides.
    pub fn words(&self) -> &[u64] {
        &self.words
    }

    /// The `n` words after the first `at`.
    fn part(&self, at: usize, n: usize) -> &[u64] {
        &self.words[at..at + n]
    }

    /// Of the And constraints.
    pub fn ands(&self) -> impl ExactSizeIterator<Item = And<u64>> + '_ {
        self.part(0, self.rows.ands.len()).chunks_exact(3).map(|r| and_of(r, |w| w))
    }

    /// Of the Imul constraints.
    pub fn imuls(&self) -> impl ExactSizeIterator<Item = Imul<u64>> + '_ {
        self.part(self.rows.ands.len(), self.rows.imuls.len()).chunks_exact(4).map(|r| imul_of(r, |w| w))
    }

    /// Of the Bmul constraints.
    pub fn bmuls(&self) -> impl ExactSizeIterator<Item = Bmul<u64>> + '_ {
        let rows = self.rows;
        self.part(rows.ands.len() + rows.imuls.len(), rows.bmuls.len()).chunks_exact(6).map(|r| bmul_of(r, |w| w))
    }

    /// Of the Zero constraints.
    pub fn zeros(&self) -> impl ExactSizeIterator<Item = Zero<u64>> + '_ {
        let rows = self.rows;
        self.part(rows.ands.len() + rows.imuls.len() + rows.bmuls.len(), rows.zeros.len())
            .iter()
            .map(|&val| Zero { val })
    }

    /// Of the definitions.
    pub fn linears(&self) -> impl ExactSizeIterator<Item = Linear<u64>> + '_ {
        let rights = &self.words[self.words.len() - self.rows.rhss.len()..];
        self.rows.dsts.iter().zip(rights).map(|(&d, &rhs)| Linear { dst: Wire::new(d), rhs })
    }
}

impl fmt::Debug for Values<'_> {
    fn fmt(&self, f: &mut fmt::Formatter<'_>) -> fmt::Result {
        f.debug_tuple("Values").field(&self.words).finish()
    }
}
