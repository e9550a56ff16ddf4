use crate::{ffi, lists::Rows, Assignment, Lists, Refusal, System, Values, Wire};
use std::fmt;

/// How many shifts a term of the prover's lists may have.
#[derive(Clone, Copy, Debug, PartialEq, Eq, Hash)]
pub enum Slots {
    /// One shift a term.
    One,
    /// An inner and an outer shift.
    Two,
}

impl Slots {
    pub(crate) fn number(self) -> u64 {
        match self {
            Slots::One => 1,
            Slots::Two => 2,
        }
    }
}

/// What is told of a fused system. Definitions before are gone + stranded + committed.
#[derive(Clone, Copy, Debug, PartialEq, Eq)]
pub struct Counts {
    /// Definitions that were put in the place of their wires and are no more.
    pub gone: usize,
    /// Definitions that nothing mentions after fusing. They stay unchanged.
    pub stranded: usize,
    /// Definitions that commit: their wires keep a word of their own.
    pub committed: usize,
    /// Terms of the rebuilt constraints and definitions.
    pub written: usize,
    /// The wire count less the uncommitted definitions: so many wires need a stored word.
    pub kept: usize,
}

/// A fused system: the patched lists for the prover, and the system that they came from.
///
/// The two are held together, so words are filled back by the definitions that were fused and by no others, and lists that were fused
/// cannot be taken for those of before:
///
/// ```compile_fail,E0382
/// # use tiwzerand::{Slots, System};
/// # fn twice(system: System) {
/// let fused = system.fuse(Slots::Two);
/// let again = system.fuse(Slots::Two);
/// # }
/// ```
#[derive(Clone)]
pub struct Fused {
    before: System,
    rows: Rows,
    new: Vec<u64>,
    flags: Vec<u8>,
    counts: Counts,
}

impl Fused {
    pub(crate) fn new(before: System, rows: Rows, left: ffi::Left) -> Fused {
        let [gone, stranded, committed, written, kept] = left.counts;
        let counts = Counts { gone, stranded, committed, written, kept };
        Fused { before, rows, new: left.new, flags: left.flags, counts }
    }

    /// The system before fusing.
    pub fn before(&self) -> &System {
        &self.before
    }

    /// The system before fusing, for keeps.
    pub fn into_before(self) -> System {
        self.before
    }

    /// The patched lists: in each what was not rebuilt, in old order, then what was.
    pub fn lists(&self) -> Lists<'_> {
        Lists { old: &self.before.0.terms, new: &self.new, rows: &self.rows }
    }

    /// What is told of it.
    pub fn counts(&self) -> Counts {
        self.counts
    }

    /// Whether a defined wire keeps a word of its own. A wire that nothing defines is not committed.
    pub fn is_committed(&self, wire: Wire) -> bool {
        self.flags.get(usize::from(wire.number())).is_some_and(|&flag| flag != 0)
    }

    /// The committed wires, by rising number.
    pub fn committed(&self) -> impl Iterator<Item = Wire> + '_ {
        self.all().filter(|&wire| self.is_committed(wire))
    }

    /// The wires that need a stored word, by rising number: as many as [`Counts::kept`] says. Of the others no word need be stored; what
    /// stands in their place is filled back after the proof.
    pub fn kept(&self) -> impl Iterator<Item = Wire> + '_ {
        let mut kept: Vec<bool> = vec![true; self.before.0.rows.wires];
        for &dst in &self.before.0.rows.dsts {
            kept[usize::from(dst)] = self.is_committed(Wire::new(dst));
        }
        self.all().zip(kept).filter_map(|(wire, is_kept)| is_kept.then_some(wire))
    }

    fn all(&self) -> impl Iterator<Item = Wire> {
        (0..self.rows.wires as u16).map(Wire::new)
    }

    /// The patched lists as a house file, or WIDE: expanding can make a record too long for it.
    pub fn write(&self) -> Result<Vec<u8>, Refusal> {
        self.lists().write()
    }

    /// The words of all operands of the patched lists under an assignment, or SIZE. Whatever the wires have that are not kept, no patched
    /// constraint reads it, except that a stranded definition may.
    pub fn evaluate(&self, assignment: &Assignment) -> Result<Values<'_>, Refusal> {
        self.lists().evaluate(assignment)
    }

    /// Gives each defined wire that is not committed the word of its definition in the system before fusing, and changes no other word; or
    /// SIZE, and the assignment is as it was. A missing word is so computed, never taken for 0.
    pub fn fill_back(&self, assignment: &mut Assignment) -> Result<(), Refusal> {
        ffi::fill_back(&self.before.0.terms, &self.before.0.rows, &self.flags, &mut assignment.0)
    }
}

/// The same constraints in the same order, before and after, and the same committed wires.
impl PartialEq for Fused {
    fn eq(&self, other: &Self) -> bool {
        self.before == other.before && self.lists() == other.lists() && self.flags == other.flags
    }
}

impl Eq for Fused {}

impl fmt::Debug for Fused {
    fn fmt(&self, f: &mut fmt::Formatter<'_>) -> fmt::Result {
        f.debug_struct("Fused").field("lists", &self.lists()).field("counts", &self.counts).finish()
    }
}
