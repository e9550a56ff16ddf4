use crate::Shift;
use std::fmt;

/// The number of a wire. It is no index of anything else, and no count.
#[derive(Clone, Copy, Debug, PartialEq, Eq, Hash, PartialOrd, Ord)]
pub struct Wire(u16);

impl Wire {
    /// The wire of a number. Whether a system has it is looked at where the two meet: WIRE.
    pub const fn new(number: u16) -> Wire {
        Wire(number)
    }

    /// Its number.
    pub const fn number(self) -> u16 {
        self.0
    }

    /// The term of this wire, unshifted.
    pub const fn term(self) -> Term {
        Term { wire: self, inner: Shift::IDENTITY, outer: Shift::IDENTITY }
    }

    /// The term of this wire, shifted once.
    pub const fn shifted(self, shift: Shift) -> Term {
        Term { wire: self, inner: shift, outer: Shift::IDENTITY }
    }
}

/// A term of an operand: a wire, shifted by `inner`, then by `outer`.
#[derive(Clone, Copy, Debug, PartialEq, Eq, Hash)]
pub struct Term {
    /// The wire.
    pub wire: Wire,
    /// Applied first.
    pub inner: Shift,
    /// Applied to what `inner` gives. An identity in definitions, and wherever the wire is a defined one.
    pub outer: Shift,
}

impl Term {
    /// As it stands in a store.
    pub(crate) fn number(self) -> u64 {
        u64::from(self.wire.0) | u64::from(self.inner.number()) << 16 | u64::from(self.outer.number()) << 32
    }

    /// The term that a number of a checked store stands for.
    pub(crate) fn given(number: u64) -> Term {
        Term {
            wire: Wire(number as u16),
            inner: Shift::given(number >> 16 & 0xffff),
            outer: Shift::given(number >> 32),
        }
    }
}

impl From<Wire> for Term {
    fn from(wire: Wire) -> Term {
        wire.term()
    }
}

impl fmt::Display for Term {
    fn fmt(&self, f: &mut fmt::Formatter<'_>) -> fmt::Result {
        match (self.inner.is_identity(), self.outer.is_identity()) {
            (true, true) => write!(f, "{}", self.wire.0),
            (_, true) => write!(f, "({}, {})", self.wire.0, self.inner),
            _ => write!(f, "({}, [{}, {}])", self.wire.0, self.inner, self.outer),
        }
    }
}
