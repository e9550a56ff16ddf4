//! What 01 says of fusing, held by the Rust and by the rules.

use harness::{
    examples, house, oracle,
    outcome::{Fused, Outcome, dump_lists, report},
    rules,
    system::{MAX_WRITTEN, System},
};

/// The answer on which Rust and rules agree.
fn fuse(system: &System, slots: usize) -> Outcome {
    let by_rules = rules::fuse(system, slots, MAX_WRITTEN);
    assert_eq!(oracle::fuse(system, slots, MAX_WRITTEN), by_rules);
    by_rules
}

fn fused(system: &System, slots: usize) -> Fused {
    match fuse(system, slots) {
        Outcome::Fused(fused) => fused,
        other => panic!("{other:?}"),
    }
}

#[test]
fn report_of_the_stranded_example() {
    let hex = "01 02 00 03 00 05 08 00 01 00 01 00 28 00 00 00 06 0A 00 01 00 01 00 02 00 28 00 00 00 \
               06 0A 00 02 00 01 00 00 00 00 00 00 00 07 00 00";
    let file: Vec<u8> = hex.split_whitespace().map(|byte| u8::from_str_radix(byte, 16).expect("hex")).collect();
    let system = house::read(&file).expect("01's example is accepted");
    assert_eq!(system, examples::stranded());
    assert_eq!(report(&fuse(&system, 2)), "ok 0 0 0 1 1 0 1 0 1");
}

#[test]
fn the_second_slot_spares_a_commit() {
    let system = examples::two_slots();
    assert_eq!(dump_lists(&fused(&system, 2).system), "and 0:66:1 1:1:0 / 3:0:0 / 4:0:0\n");
    assert_eq!(fused(&system, 1).committed, [2]);
}

#[test]
fn every_eighth_of_a_chain_commits() {
    assert_eq!(fused(&examples::chain(7), 2).committed, []);
    let eight = fused(&examples::chain(8), 2);
    assert_eq!((eight.committed.as_slice(), eight.gone.len()), ([9].as_slice(), 7));
    assert_eq!(fused(&examples::chain(17), 1).committed, [9, 17]);
    assert_eq!(fused(&examples::chain(1024), 2).committed.len(), 128);
}

#[test]
fn products_of_four_and_five() {
    assert_eq!(fused(&examples::product(3, 3), 2).committed, []);
    assert_eq!(fused(&examples::product(2, 6), 2).committed, [1]);
    assert_eq!(fused(&examples::product(1, 100), 2).committed, []);
}

#[test]
fn identities() {
    assert_eq!(dump_lists(&fused(&examples::odd_identity_pushed(), 2).system), "zero 0:0:0\n");
    assert_eq!(dump_lists(&fused(&examples::odd_identity_copied(), 2).system), "zero 2:192:64 0:0:0\n");
}

#[test]
fn every_operand_of_a_rebuilt_constraint_is_written() {
    assert_eq!(fused(&examples::copied_operands(), 2).written, 3);
}

#[test]
fn orders() {
    let moved = dump_lists(&fused(&examples::moved(), 2).system);
    assert!(moved.starts_with("zero 0:0:0\nzero 1:1:0 1:1:0"), "{moved}");
    let rising: Vec<u16> = fused(&examples::by_rising_wire(), 2).system.linears.iter().map(|d| d.dst).collect();
    assert_eq!(rising, [1, 2]);
}

#[test]
fn plain_expansion_may_never_end() {
    let system = examples::endless(1000);
    assert_eq!(oracle::fuse(&system, 2, MAX_WRITTEN), Outcome::Endless { committed: vec![], written: 0 });
    assert_eq!(report(&rules::fuse(&system, 2, MAX_WRITTEN)), "ok 0 0 0 1 0 0 0 0 1");
    // So few copies that the Rust can be waited for.
    assert_eq!(fused(&examples::endless(5), 2).written, 0);
}

#[test]
fn slots_are_one_or_two() {
    for slots in [0, 3, 100] {
        assert_eq!(fuse(&examples::two_slots(), slots), Outcome::Refused(house::SLOTS));
    }
}

#[test]
fn rooms() {
    let system = examples::product(3, 3);
    for room in [9, 10] {
        assert!(matches!(oracle::fuse(&system, 2, room), Outcome::Fused(_)));
    }
    for side in [oracle::fuse, rules::fuse] {
        assert_eq!(side(&system, 2, 8), Outcome::Refused(house::ROOM));
    }
}
