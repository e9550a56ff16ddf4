//! The paper's examples.

use tiwzerand::{
    compose, push_inner, And, Builder, Composition, Counts, Fused, Pushed, Refusal, Shift, Slots, System, Term,
    Variant, Variant::*, Wire,
};

fn by(variant: Variant, amount: u8) -> Shift {
    Shift::new(variant, amount).unwrap()
}

/// The file of the paper, in hex.
const EXAMPLE: &str = "01 02 00 03 00 05 08 00 01 00 01 00 28 00 00 00 06 0A 00 01 00 01 00 02 00 28 00 00 00 \
    06 0A 00 02 00 01 00 00 00 00 00 00 00 07 00 00";

fn bytes(hex: &str) -> Vec<u8> {
    hex.split_whitespace().map(|b| u8::from_str_radix(b, 16).unwrap()).collect()
}

fn fused(system: System, slots: Slots) -> Fused {
    system.fuse(slots).map_err(|(_, refusal)| refusal).unwrap()
}

fn terms(operand: tiwzerand::Operand<'_>) -> Vec<Term> {
    operand.terms().collect()
}

#[test]
fn composing() {
    use Composition::{Pair, Single, Zero};
    let rows = [
        (by(Slr, 32), by(Sra32, 5), Pair),
        (by(Slr, 33), by(Sra32, 5), Single(by(Slr, 38))),
        (by(Rotr, 32), by(Rotr, 32), Single(by(Sll, 0))),
        (by(Sll, 40), by(Sll, 23), Single(by(Sll, 63))),
        (by(Sll, 40), by(Sll, 24), Zero),
        (by(Sar, 40), by(Sar, 40), Single(by(Sar, 63))),
        (by(Sar, 62), by(Rotr, 5), Pair),
        (by(Sar, 63), by(Rotr, 5), Single(by(Sar, 63))),
        (by(Srl32, 1), by(Sar, 32), Single(by(Slr, 33))),
        (by(Srl32, 1), by(Sar, 31), Pair),
    ];
    for (inner, outer, is) in rows {
        assert_eq!(compose(inner, outer), is, "{inner}, {outer}");
    }
}

#[test]
fn pushing() {
    let seq = push_inner(by(Sll, 1), by(Sll32, 11), by(Sll, 31), Slots::Two);
    assert_eq!(seq, Pushed::Seq(by(Sll, 43), Shift::IDENTITY));
    assert_eq!(push_inner(by(Sll, 1), Shift::IDENTITY, by(Slr, 2), Slots::Two), Pushed::Seq(by(Slr, 2), by(Sll, 1)));
    assert_eq!(push_inner(by(Sll, 1), Shift::IDENTITY, by(Slr, 2), Slots::One), Pushed::OverBudget);
    assert_eq!(push_inner(by(Sll, 40), Shift::IDENTITY, by(Sll, 24), Slots::One), Pushed::Zero);
}

#[test]
fn shifts_by_number() {
    let valid = (0..=u16::MAX).filter(|&n| Shift::from_number(n).is_ok()).count();
    assert_eq!(valid, 4 * 64 + 4 * 32);
    for n in 0..512 {
        let Ok(s) = Shift::from_number(n) else { continue };
        assert_eq!((s.number(), Shift::new(s.variant(), s.amount())), (n, Ok(s)));
        assert_eq!(s.is_identity(), n % 64 == 0);
    }
    for amount in [32, 63, 64, 255] {
        assert_eq!(Shift::new(Rotr32, amount), Err(Refusal::Shift));
    }
}

#[test]
fn the_report() {
    let file = bytes(EXAMPLE);
    let system = System::read(&file).unwrap();
    assert_eq!(system.write(), file);
    let fused = fused(system, Slots::Two);
    let (lists, counts) = (fused.lists(), fused.counts());
    let nine = [
        lists.ands().len(),
        lists.imuls().len(),
        lists.bmuls().len(),
        lists.zeros().len(),
        lists.linears().len(),
        counts.committed,
        counts.stranded,
        counts.written,
        counts.kept,
    ];
    assert_eq!(nine, [0, 0, 0, 1, 1, 0, 1, 0, 1]);
    assert!(lists.zeros().next().unwrap().val.is_empty());
    let stranded = lists.linears().next().unwrap();
    assert_eq!((stranded.dst, terms(stranded.rhs)), (Wire::new(2), vec![Wire::new(0).term()]));
    assert_eq!(
        fused.write().unwrap(),
        bytes("01 02 00 03 00 05 02 00 00 00 06 0A 00 02 00 01 00 00 00 00 00 00 00 07 00 00")
    );
    assert_eq!(fused.kept().collect::<Vec<_>>(), [Wire::new(0)]);
}

/// And with a = (d, sll 1), d = (x, slr 2) xor y.
fn and_example() -> (System, [Wire; 3]) {
    let mut b = Builder::new();
    let [x, y, d] = b.wires();
    b.define(d, &[x.shifted(by(Slr, 2)), y.term()]);
    b.and(And { a: &[d.shifted(by(Sll, 1))], b: &[x.term()], c: &[y.term()] });
    (b.build().unwrap(), [x, y, d])
}

#[test]
fn two_slots() {
    let (system, [x, y, d]) = and_example();
    let fused = fused(system, Slots::Two);
    let a = fused.lists().ands().next().unwrap().a;
    assert_eq!(terms(a), [Term { wire: x, inner: by(Slr, 2), outer: by(Sll, 1) }, y.shifted(by(Sll, 1))]);
    assert_eq!(fused.counts(), Counts { gone: 1, stranded: 0, committed: 0, written: 4, kept: 2 });
    assert!(!fused.is_committed(d));
}

#[test]
fn one_slot() {
    let (system, [x, y, d]) = and_example();
    let fused = fused(system, Slots::One);
    assert!(fused.is_committed(d));
    assert_eq!(fused.committed().collect::<Vec<_>>(), [d]);
    assert_eq!(fused.kept().collect::<Vec<_>>(), [x, y, d]);
    assert_eq!(fused.counts(), Counts { gone: 0, stranded: 0, committed: 1, written: 5, kept: 3 });
    assert_eq!(terms(fused.lists().ands().next().unwrap().a), [d.shifted(by(Sll, 1))]);
    assert_eq!(terms(fused.lists().linears().next().unwrap().rhs), [x.shifted(by(Slr, 2)), y.term()]);
}

/// A straight chain of two-term unshifted definitions under one constraint: seven are gone, the eighth commits.
#[test]
fn a_chain_of_eight() {
    let mut b = Builder::new();
    let [x, y] = b.wires();
    let chain: [Wire; 8] = b.wires();
    b.zero(&[chain[0].term()]);
    for pair in chain.windows(2) {
        b.define(pair[0], &[pair[1].term(), x.term()]);
    }
    b.define(chain[7], &[y.term(), x.term()]);
    let fused = fused(b.build().unwrap(), Slots::Two);
    assert_eq!(fused.counts(), Counts { gone: 7, stranded: 0, committed: 1, written: 8 + 2, kept: 3 });
    assert_eq!(fused.committed().collect::<Vec<_>>(), [chain[7]]);
    // equal terms count each
    let val = fused.lists().zeros().next().unwrap().val;
    assert_eq!((val.len(), val.terms().filter(|t| t.wire == x).count()), (8, 7));
}

/// Terms 3, uses 3, not one run: product 4, no commit on that ground. Terms 2, uses 6: 5, commit.
#[test]
fn products() {
    let committed = |n_terms: usize, uses: usize| {
        let mut b = Builder::new();
        let d = b.wire();
        let rhs: Vec<Term> = (0..n_terms).map(|_| b.wire().shifted(by(Slr, 2))).collect();
        b.define(d, &rhs);
        for _ in 0..uses {
            b.zero(&[d.shifted(by(Sll, 1))]);
        }
        fused(b.build().unwrap(), Slots::Two).counts().committed
    };
    assert_eq!((committed(3, 3), committed(2, 6)), (0, 1));
}
