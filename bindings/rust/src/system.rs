use crate::{ffi, lists::Rows, And, Assignment, Bmul, Fault, Fused, Imul, Lists, Refusal, Slots, Term, Values, Wire};
use std::fmt;

/// A constraint system as the circuit builder leaves it: the five lists and the wire count.
///
/// There are two ways to one, [`System::read`] and [`Builder::build`], so each is within the limits, with wires and shifts that exist.
#[derive(Clone)]
pub struct System(pub(crate) Box<Stores>);

#[derive(Clone, Default)]
pub(crate) struct Stores {
    pub terms: Vec<u64>,
    pub rows: Rows,
}

impl System {
    /// Reads a house file, or says what its first fault is and where.
    ///
    /// What only fusing asks of definitions, TWICE to CIRCLE, is not looked at here: see [`System::check`].
    ///
    /// ```
    /// use tiwzerand::{Refusal, System};
    /// let fault = System::read(&[1, 2, 0, 3]).unwrap_err();
    /// assert_eq!((fault.refusal, fault.offset), (Refusal::Cut, 0));
    /// ```
    pub fn read(file: &[u8]) -> Result<System, Fault> {
        let (terms, rows) = ffi::read(file)?;
        Ok(System(Box::new(Stores { terms, rows })))
    }

    /// Writes the system as a house file. [`System::read`] gives it back.
    pub fn write(&self) -> Vec<u8> {
        match self.lists().write() {
            Ok(file) => file,
            Err(refusal) => unreachable!("8,192 terms fit the widest record: {refusal}"),
        }
    }

    /// The five lists.
    pub fn lists(&self) -> Lists<'_> {
        Lists { old: &self.0.terms, new: &[], rows: &self.0.rows }
    }

    /// Whether fusing would accept the definitions: TWICE, EMPTY, DOUBLE or CIRCLE, or nothing.
    pub fn check(&self) -> Result<(), Refusal> {
        // Filling back makes these checks. Where every wire is committed it has nothing to fill.
        let wires = self.0.rows.wires;
        ffi::fill_back(&self.0.terms, &self.0.rows, &vec![1; wires], &mut vec![0; wires])
    }

    /// An assignment of 0 to every wire, to be given words.
    pub fn assignment(&self) -> Assignment {
        Assignment::new(vec![0; self.0.rows.wires])
    }

    /// The words of all operands under an assignment, or SIZE.
    pub fn evaluate(&self, assignment: &Assignment) -> Result<Values<'_>, Refusal> {
        self.lists().evaluate(assignment)
    }

    /// Fuses: each definition that is worth it is put in the place of the wire that it defines, and the rest is committed.
    ///
    /// A refusal (TWICE, EMPTY, DOUBLE, CIRCLE or ROOM) hands the system back as it was. It takes up to 0.7 MB of stack: Rust's threads
    /// have 2 MB unless told otherwise.
    pub fn fuse(self, slots: Slots) -> Result<Fused, (System, Refusal)> {
        let mut rows = self.0.rows.clone();
        match ffi::fuse(&self.0.terms, &mut rows, slots.number()) {
            Ok(left) => Ok(Fused::new(self, rows, left)),
            Err(refusal) => Err((self, refusal)),
        }
    }
}

/// The same constraints in the same order.
impl PartialEq for System {
    fn eq(&self, other: &Self) -> bool {
        self.lists() == other.lists()
    }
}

impl Eq for System {}

impl fmt::Debug for System {
    fn fmt(&self, f: &mut fmt::Formatter<'_>) -> fmt::Result {
        f.debug_tuple("System").field(&self.lists()).finish()
    }
}

/// Makes a [`System`] list by list. Nothing is refused on the way: [`Builder::build`] looks at everything at once.
///
/// ```
/// use tiwzerand::{And, Builder, Shift, Variant};
/// let mut b = Builder::new();
/// let [x, y, d] = b.wires();
/// b.define(d, &[x.shifted(Shift::new(Variant::Slr, 2)?), y.term()]);
/// b.and(And { a: &[d.shifted(Shift::new(Variant::Sll, 1)?)], b: &[x.term()], c: &[y.term()] });
/// let system = b.build()?;
/// assert_eq!(system.lists().ands().next().unwrap().a.to_string(), "(2, sll 1)");
/// # Ok::<(), tiwzerand::Refusal>(())
/// ```
#[derive(Default)]
pub struct Builder(Stores);

impl Builder {
    /// No wire and no constraint.
    pub fn new() -> Builder {
        Builder::default()
    }

    /// One more wire.
    pub fn wire(&mut self) -> Wire {
        let number = self.0.rows.wires;
        self.0.rows.wires += 1;
        // A wire past the last number is never used: so many wires are FULL.
        Wire::new(number.min(usize::from(u16::MAX)) as u16)
    }

    /// Some more wires: `let [x, y] = b.wires();`
    pub fn wires<const N: usize>(&mut self) -> [Wire; N] {
        [(); N].map(|()| self.wire())
    }

    /// The terms go to the store, and the operand's number is given.
    fn operand(&mut self, terms: &[Term]) -> u64 {
        let start = self.0.terms.len();
        self.0.terms.extend(terms.iter().map(|t| t.number()));
        (terms.len() as u64 & 0xffff_ffff) | (start as u64 & 0x7fff_ffff) << 32
    }

    /// Adds an And: `a & b == c`.
    pub fn and(&mut self, row: And<&[Term]>) {
        let row = [row.a, row.b, row.c].map(|o| self.operand(o));
        self.0.rows.ands.extend(row);
    }

    /// Adds an Imul.
    pub fn imul(&mut self, row: Imul<&[Term]>) {
        let row = [row.a, row.b, row.hi, row.lo].map(|o| self.operand(o));
        self.0.rows.imuls.extend(row);
    }

    /// Adds a Bmul.
    pub fn bmul(&mut self, row: Bmul<&[Term]>) {
        let row = [row.a_lo, row.a_hi, row.b_lo, row.b_hi, row.c_lo, row.c_hi].map(|o| self.operand(o));
        self.0.rows.bmuls.extend(row);
    }

    /// Adds a Zero: `val == 0`.
    pub fn zero(&mut self, val: &[Term]) {
        let val = self.operand(val);
        self.0.rows.zeros.push(val);
    }

    /// Adds a definition: the wire `dst` is the xor of these terms.
    pub fn define(&mut self, dst: Wire, rhs: &[Term]) {
        let rhs = self.operand(rhs);
        self.0.rows.dsts.push(dst.number());
        self.0.rows.rhss.push(rhs);
    }

    /// The system, or the first of WIRE, FULL, TWICE, EMPTY, DOUBLE and CIRCLE that holds of it. Of these nothing is left for fusing to
    /// refuse.
    pub fn build(self) -> Result<System, Refusal> {
        let system = System(Box::new(self.0));
        system.check().map(|()| system)
    }
}

impl fmt::Debug for Builder {
    fn fmt(&self, f: &mut fmt::Formatter<'_>) -> fmt::Result {
        let lists = Lists { old: &self.0.terms, new: &[], rows: &self.0.rows };
        f.debug_tuple("Builder").field(&lists).finish()
    }
}
