//! The shift algebra: digests of the Rust's answers, and the rules' answers beside them.

use harness::{
    evaluate,
    rules::shift::{self, Composition, Pushed, ROTR, SAR, SLL, SLL32, SLR, SRA32, SRL32, shift as by},
    shifts::{self, valid_shifts, words},
};

/// The program `replay_shift` prints the same, from the project's own functions.
#[test]
fn digests_are_those_of_replay_shift() {
    let replayed = include_str!("../../crates/replay_shift/stdout");
    assert!(replayed.starts_with(&shifts::digest_lines()));
}

#[test]
fn rules_and_rust_compose_alike() {
    let tried = shifts::compare_compose();
    assert_eq!((tried.calls, tried.differences), (147_456, 0));
}

#[test]
fn rules_and_rust_apply_alike() {
    let tried = shifts::compare_apply();
    assert_eq!((tried.calls, tried.differences), (115_200, 0));
}

#[test]
fn machine_shifts_are_bitwise_shifts() {
    for word in words() {
        for number in valid_shifts() {
            assert_eq!(evaluate::shifted(number, word), shift::apply(number, word), "{number} {word:x}");
        }
    }
}

#[test]
fn examples() {
    let single = |number| Composition::Single(number);
    for (inner, outer, expected) in [
        (by(SLR, 32), by(SRA32, 5), Composition::Pair),
        (by(SLR, 33), by(SRA32, 5), single(by(SLR, 38))),
        (by(ROTR, 32), by(ROTR, 32), single(0)),
        (by(SLL, 40), by(SLL, 23), single(by(SLL, 63))),
        (by(SLL, 40), by(SLL, 24), Composition::Zero),
        (by(SAR, 40), by(SAR, 40), single(by(SAR, 63))),
        (by(SAR, 62), by(ROTR, 5), Composition::Pair),
        (by(SAR, 63), by(ROTR, 5), single(by(SAR, 63))),
        (by(SRL32, 1), by(SAR, 32), single(by(SLR, 33))),
        (by(SRL32, 1), by(SAR, 31), Composition::Pair),
        (192, 64, single(64)),
    ] {
        assert_eq!(shift::compose(inner, outer), expected, "rules: {inner} {outer}");
        assert_eq!(shifts::rust_compose(inner, outer), expected, "Rust: {inner} {outer}");
    }
    let pushed = Pushed::Seq([by(SLL, 43), 0]);
    assert_eq!(shift::push_inner([by(SLL, 1), by(SLL32, 11)], by(SLL, 31), 2), pushed);
    assert_eq!(shifts::rust_push([by(SLL, 1), by(SLL32, 11)], by(SLL, 31), 2), pushed);
}
