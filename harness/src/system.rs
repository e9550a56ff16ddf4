//! A constraint system in the harness's own form: five lists of operands, each a list of terms.
//!
//! Everything is a plain number, so that bad systems can be stated too.

/// The greatest wire count.
pub const MAX_WIRES: usize = 4096;
/// The greatest number of definitions.
pub const MAX_DEFINITIONS: usize = 1024;
/// The greatest number of other constraints, in all four lists together.
pub const MAX_OTHERS: usize = 1024;
/// The greatest number of terms of a system that is fused.
pub const MAX_TERMS: usize = 8192;
/// The greatest number of terms in the result store.
pub const MAX_WRITTEN: usize = 16384;
/// The longest file that `fusereport` reads, and its result store.
pub const REPORT_BYTES: usize = 65_536;
pub const REPORT_ROOM: usize = 4096;

/// A wire under two shifts, which are numbers: 64 x variant + amount. Inner is applied first.
#[derive(Copy, Clone, Debug, PartialEq, Eq, Hash, PartialOrd, Ord)]
pub struct Term {
    pub wire: u16,
    pub inner: u16,
    pub outer: u16,
}

impl Term {
    pub const fn new(wire: u16, inner: u16, outer: u16) -> Self {
        Self { wire, inner, outer }
    }

    pub const fn single(wire: u16, inner: u16) -> Self {
        Self::new(wire, inner, 0)
    }

    pub const fn plain(wire: u16) -> Self {
        Self::new(wire, 0, 0)
    }
}

pub type Operand = Vec<Term>;

/// A constraint that defines no wire: its operands in file order.
pub type Constraint = Vec<Operand>;

#[derive(Clone, Debug, PartialEq, Eq)]
pub struct Definition {
    pub dst: u16,
    pub rhs: Operand,
}

/// The four kinds of constraint that define no wire, in `ConstraintRef` order, which is tag order too.
pub const AND: usize = 0;
pub const IMUL: usize = 1;
pub const BMUL: usize = 2;
pub const ZERO: usize = 3;
pub const KINDS: usize = 4;

/// Operands of each kind.
pub const OPERANDS: [usize; KINDS] = [3, 4, 6, 1];
pub const NAMES: [&str; KINDS] = ["and", "imul", "bmul", "zero"];

#[derive(Clone, Debug, PartialEq, Eq, Default)]
pub struct System {
    pub wires: usize,
    /// And, Imul, Bmul and Zero.
    pub others: [Vec<Constraint>; KINDS],
    pub linears: Vec<Definition>,
}

impl System {
    pub fn new(wires: usize) -> Self {
        Self { wires, ..Self::default() }
    }

    pub fn other_count(&self) -> usize {
        self.others.iter().map(Vec::len).sum()
    }

    pub fn term_count(&self) -> usize {
        self.operands().map(Vec::len).sum()
    }

    /// Every operand, in tag order.
    pub fn operands(&self) -> impl Iterator<Item = &Operand> {
        let others = self.others.iter().flatten().flatten();
        others.chain(self.linears.iter().map(|definition| &definition.rhs))
    }

    /// The position, in the list of definitions, of the last one that defines each wire.
    pub fn definition_of(&self) -> Vec<Option<usize>> {
        let mut found = vec![None; self.wires];
        for (position, definition) in self.linears.iter().enumerate() {
            found[usize::from(definition.dst)] = Some(position);
        }
        found
    }
}
