//! Stand-in for lower/expr.rs: an expression is its list of terms. The harness hands operands over ready made.

use super::{ConstraintBuilder, ShiftedWire, WireOperand};

pub type WireExprTerm = ShiftedWire;

pub struct WireExpr(pub Vec<WireExprTerm>);

impl WireExpr {
    pub fn into_operand(self, builder: &mut ConstraintBuilder) -> WireOperand {
        builder.push_operand(self.0)
    }
}

/// The operand that is zero.
pub const fn empty() -> WireExpr {
    WireExpr(Vec::new())
}
