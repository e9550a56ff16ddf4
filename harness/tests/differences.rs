//! Where the Rust parts from 01, at the inputs that docs/DIFFERENCES.md names. If one of these fails, that file is wrong.

use std::panic::{AssertUnwindSafe, catch_unwind};

use binius_core::{
    constraint_system::{Composition, Shift},
    word::Word,
};
use binius_frontend::lower::{ConstraintBuilder, PushInner, WireImulConstraint, push_inner};
use harness::{
    checks, house, oracle, rules,
    system::{Definition, IMUL, MAX_WRITTEN, System, Term, ZERO},
};

fn shifts(numbers: [usize; 2]) -> [Shift; 2] {
    numbers.map(Shift::from_index)
}

/// The Rust's pass without 01's checks: nothing if it panics.
fn unchecked(system: &System, slots: usize) -> Option<ConstraintBuilder> {
    let pass = || {
        let mut builder = oracle::builder_of(system);
        oracle::fuse_in_place(&mut builder, slots);
        builder
    };
    catch_unwind(AssertUnwindSafe(pass)).ok()
}

fn refused(system: &System, refusal: u8) {
    assert_eq!(checks::check(system, 2), Err(refusal));
}

fn system(wires: usize, zeros: &[&[Term]], definitions: &[(u16, &[Term])]) -> System {
    let mut system = System::new(wires);
    system.others[ZERO] = zeros.iter().map(|val| vec![val.to_vec()]).collect();
    system.linears = definitions.iter().map(|&(dst, rhs)| Definition { dst, rhs: rhs.to_vec() }).collect();
    system
}

#[test]
fn lone_spells_identities_one_way() {
    assert_eq!(push_inner(shifts([0, 64]), Shift::from_index(0), 1), PushInner::Seq(shifts([0, 0])));
}

#[test]
fn half_word_amounts_from_32_on() {
    let nothing = Shift::from_index(288);
    assert_eq!(nothing.apply(Word(0x0123_4567_89AB_CDEF)), Word(0x0123_4567_89AB_CDEF));
    assert_eq!(Shift::compose(Shift::from_index(32), nothing), Composition::Zero);
    assert!(!house::is_shift(288));
}

#[test]
fn numbers_from_512_on() {
    assert!(catch_unwind(|| Shift::from_index(511)).is_ok());
    assert!(catch_unwind(|| Shift::from_index(512)).is_err());
}

#[test]
fn three_slots() {
    let three = system(4, &[&[Term::single(1, 1)]], &[(1, &[Term::single(2, 65)]), (2, &[Term::single(3, 1)])]);
    assert!(unchecked(&three, 2).is_some());
    assert!(unchecked(&three, 3).is_none());
    assert_eq!(checks::check(&three, 3), Err(house::SLOTS));
}

#[test]
fn twice_panics() {
    let twice = system(1, &[], &[(0, &[Term::plain(0)]), (0, &[Term::plain(0)])]);
    refused(&twice, house::TWICE);
    assert!(unchecked(&twice, 2).is_none());
}

#[test]
fn empty_is_substituted_by_nothing() {
    let empty = system(1, &[&[Term::plain(0)]], &[(0, &[])]);
    refused(&empty, house::EMPTY);
    let after = unchecked(&empty, 2).expect("the Rust answers");
    assert_eq!((after.zero_constraints[0].val.len(), after.linear_constraints.len()), (0, 0));
}

/// Definitions that rest on empty ones alone are never decided: here none commits, and patching needs a third slot.
#[test]
fn empty_may_panic() {
    let undecided =
        system(3, &[&[Term::single(0, 1)]], &[(0, &[Term::single(1, 65)]), (1, &[Term::single(2, 1)]), (2, &[])]);
    refused(&undecided, house::EMPTY);
    assert!(!oracle::decision_panics(&undecided, 2));
    assert!(unchecked(&undecided, 2).is_none());
}

#[test]
fn double_panics() {
    let in_definition = system(2, &[], &[(1, &[Term::new(0, 0, 1)])]);
    let in_other = system(2, &[&[Term::new(1, 0, 1)]], &[(1, &[Term::plain(0)])]);
    for double in [in_definition, in_other] {
        refused(&double, house::DOUBLE);
        assert!(unchecked(&double, 2).is_none());
    }
}

/// A circle over an undefined wire panics; one over none is never decided, and if nothing reads it the Rust answers. (If something does,
/// expansion never ends: that is not run.)
#[test]
fn circles() {
    let over_a_wire = system(2, &[], &[(0, &[Term::plain(0), Term::plain(1)])]);
    refused(&over_a_wire, house::CIRCLE);
    assert!(unchecked(&over_a_wire, 2).is_none());
    let unread = system(1, &[], &[(0, &[Term::plain(0)])]);
    refused(&unread, house::CIRCLE);
    let after = unchecked(&unread, 2).expect("the Rust answers");
    assert_eq!(after.linear_constraints.len(), 1);
    let read = system(1, &[&[Term::plain(0)]], &[(0, &[Term::plain(0)])]);
    refused(&read, house::CIRCLE);
    assert!(!oracle::decision_panics(&read, 2));
}

/// The Rust has no limits: one definition more than 01 allows is fused.
#[test]
fn limits() {
    let rhs = [Term::plain(0)];
    let definitions: Vec<(u16, &[Term])> = (1..1026).map(|wire| (wire, rhs.as_slice())).collect();
    let full = system(1026, &[], &definitions);
    refused(&full, house::FULL);
    assert!(unchecked(&full, 2).is_some());
}

/// An Imul whose four operands are each rebuilt, under shifts that tell them apart.
fn imul_of_definitions() -> System {
    let mut imul = System::new(5);
    let operands = [1, 2, 3, 4].map(|wire| vec![Term::plain(wire)]);
    imul.others[IMUL].push(operands.to_vec());
    for wire in 1..5 {
        imul.linears.push(Definition { dst: wire, rhs: vec![Term::single(0, wire)] });
    }
    imul
}

/// 01 rebuilds Imul's operands as a, b, hi, lo, the Rust as a, b, lo, hi: only positions in the store differ.
#[test]
fn imul_operands_are_rebuilt_in_another_order() {
    let imul = imul_of_definitions();
    let by_rust = oracle::fuse(&imul, 2, MAX_WRITTEN);
    assert_eq!(by_rust, rules::fuse(&imul, 2, MAX_WRITTEN));
    let after = unchecked(&imul, 2).expect("the Rust answers");
    let WireImulConstraint { hi, lo, .. } = after.imul_constraints[0];
    // Positions are private to the Rust's module, but shown.
    assert_eq!(format!("{lo:?} {hi:?}"), "WireOperand { start: 10, len: 1 } WireOperand { start: 11, len: 1 }");
    assert_eq!(after.operand_terms(hi)[0].sole_shift(), Shift::sll(3));
}
