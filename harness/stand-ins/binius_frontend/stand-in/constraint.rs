//! Stand-in for lower/constraint.rs: the five shapes, and the calls that lower/mod.rs makes on them.

use binius_core::constraint_system::{
    AndConstraint, BmulConstraint, ImulConstraint, ValueIndex, ZeroConstraint,
};
use cranelift_entity::{EntitySet, SecondaryMap};

use super::operand::{ShiftedWire, WireOperand};
use crate::ir::Wire;

type Mapping = SecondaryMap<Wire, ValueIndex>;

macro_rules! shape {
    ($name:ident, $core:ident, $($operand:ident),+) => {
        #[derive(Copy, Clone, Debug)]
        pub struct $name {
            $(pub $operand: WireOperand),+
        }

        impl $name {
            pub fn into_constraint(self, terms: &[ShiftedWire], mapping: &Mapping) -> $core {
                $core([$(self.$operand.into_value_indices(terms, mapping)),+])
            }

            pub fn mark_used(&self, terms: &[ShiftedWire], used: &mut EntitySet<Wire>) {
                $(self.$operand.mark_used(terms, used);)+
            }
        }
    };
}

shape!(WireAndConstraint, AndConstraint, a, b, c);
shape!(WireImulConstraint, ImulConstraint, a, b, hi, lo);
shape!(WireBmulConstraint, BmulConstraint, a_lo, a_hi, b_lo, b_hi, c_lo, c_hi);

#[derive(Copy, Clone, Debug)]
pub struct WireZeroConstraint {
    pub val: WireOperand,
}

impl WireZeroConstraint {
    pub fn into_constraint(self, terms: &[ShiftedWire], mapping: &Mapping) -> ZeroConstraint {
        ZeroConstraint(self.val.into_value_indices(terms, mapping))
    }

    pub fn mark_used(&self, terms: &[ShiftedWire], used: &mut EntitySet<Wire>) {
        self.val.mark_used(terms, used);
    }
}

#[derive(Copy, Clone, Debug)]
pub struct WireLinearConstraint {
    pub rhs: WireOperand,
    pub dst: Wire,
}

impl WireLinearConstraint {
    pub fn into_zero_constraint(self, terms: &[ShiftedWire], mapping: &Mapping) -> ZeroConstraint {
        ZeroConstraint(self.rhs.into_value_indices(terms, mapping))
    }

    pub fn mark_used(&self, terms: &[ShiftedWire], used: &mut EntitySet<Wire>) {
        self.rhs.mark_used(terms, used);
        used.insert(self.dst);
    }
}
