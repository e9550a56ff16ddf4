//! The project's own library: that its comparison can fail. What it leaves is spoilt in one place at a time, and each has to be noticed.
#![cfg(feature = "ours")]

use harness::{
    compare::{Totals, compare_kind_with, faults_of, faults_of_all},
    damage, examples,
    generate::kind_by_name,
    house,
    library::{self, Answer, Library},
    ours::{self, Ours},
    outcome::{Fuse, Outcome},
    rules,
    shifts::{OurShifts, compare_our_compose, compare_our_push},
    slow, stores,
    system::MAX_WRITTEN,
    third::Third,
};

fn right() -> Library {
    *library::linked().expect("the feature is on")
}

/// Whether some systems of a few kinds show that a library is wrong.
fn noticed(spoil: fn(Answer<'_>)) -> bool {
    let mut third = Third::new(&spoilt(spoil));
    let kinds = ["dense", "drop", "faulty"].map(|name| kind_by_name(name).expect("a kind"));
    kinds.into_iter().any(|kind| compare_kind_with(Some(&mut third), kind, 0, 70).differences > 0)
}

#[test]
fn the_library_itself_is_not_noticed() {
    assert!(!noticed(|_| {}));
    for (name, system) in examples::all() {
        assert_eq!(faults_of(&system, &mut Totals::default()), Vec::<String>::new(), "{name}");
    }
}

fn flip<T: Copy + std::ops::BitXorAssign + From<u8>>(cells: &mut [T], at: usize) {
    if let Some(cell) = cells.get_mut(at) {
        *cell ^= T::from(1);
    }
}

#[test]
fn one_number_of_an_answer() {
    assert!(noticed(|left| if left.of == "fuse" && *left.refusal == 0 {
        flip(left.numbers[0], 0)
    }));
    assert!(noticed(|left| if left.of == "fuse" && *left.refusal == 0 {
        flip(left.numbers[4], 0)
    }));
    assert!(noticed(|left| if left.of == "fuse" && *left.refusal == 0 {
        flip(left.numbers[5], 0)
    }));
    assert!(noticed(|left| if left.of == "fuse" && *left.refusal == 0 {
        flip(left.dsts, 0)
    }));
    assert!(noticed(|left| if left.of == "fuse" && *left.refusal == 0 {
        flip(left.bytes, 0)
    }));
    assert!(noticed(|left| if left.of == "read" && *left.refusal == 0 {
        flip(left.numbers[0], 0)
    }));
    assert!(noticed(|left| if left.of == "write" && *left.refusal == 0 {
        flip(left.bytes, 9)
    }));
    assert!(noticed(|left| if left.of == "evaluate" && *left.refusal == 0 {
        flip(left.numbers[0], 2)
    }));
    assert!(noticed(|left| if left.of == "fill_back" && *left.refusal == 0 {
        flip(left.numbers[0], 1)
    }));
}

#[test]
fn each_value_told() {
    assert!(noticed(|mut left| if left.of == "fuse" && *left.refusal == 0 {
        flip(values(&mut left), 0)
    }));
    assert!(noticed(|mut left| if left.of == "fuse" && *left.refusal == 0 {
        flip(values(&mut left), 3)
    }));
    assert!(noticed(|mut left| if left.of == "fuse" && *left.refusal == 0 {
        flip(values(&mut left), 4)
    }));
    assert!(noticed(|mut left| if left.of == "read" && *left.refusal == 0 {
        flip(values(&mut left), 6)
    }));
    assert!(noticed(|left| if left.of == "write" && *left.refusal == 0 {
        flip(left.numbers[0], 0)
    }));
    assert!(noticed(|left| if left.of == "evaluate" && *left.refusal == 0 {
        flip(left.numbers[1], 0)
    }));
}

#[test]
fn refusals() {
    assert!(noticed(|left| if *left.refusal == 8 {
        *left.refusal = 9
    }));
    assert!(noticed(|left| if *left.refusal == 9 {
        *left.refusal = 10
    }));
    assert!(noticed(|left| if *left.refusal == 10 {
        *left.refusal = 11
    }));
    assert!(noticed(|left| if *left.refusal == 11 {
        *left.refusal = 0
    }));
    assert!(noticed(|left| if *left.refusal == 12 {
        *left.refusal = 6
    }));
    assert!(noticed(|mut left| if left.of == "read" && *left.refusal == 12 {
        flip(values(&mut left), 0)
    }));
    assert!(noticed(|left| if *left.refusal == 13 {
        *left.refusal = 12
    }));
    assert!(noticed(|left| if *left.refusal == 7 {
        *left.refusal = 12
    }));
}

/// A refusal fills nothing.
#[test]
fn stores_after_a_refusal() {
    assert!(noticed(|left| if left.of == "fuse" && *left.refusal == 12 {
        flip(left.numbers[0], 0)
    }));
    assert!(noticed(|left| if left.of == "fuse" && *left.refusal == 12 {
        flip(left.numbers[4], 0)
    }));
    assert!(noticed(|left| if left.of == "fuse" && *left.refusal == 12 {
        flip(left.bytes, 0)
    }));
    assert!(noticed(|left| if left.of == "fuse" && *left.refusal == 8 {
        flip(left.dsts, 1)
    }));
    assert!(noticed(|left| if left.of == "read" && *left.refusal != 0 {
        flip(left.numbers[0], 0)
    }));
    assert!(noticed(|left| if left.of == "write" && *left.refusal != 0 {
        flip(left.bytes, 3)
    }));
    assert!(noticed(|left| if left.of == "evaluate" && *left.refusal != 0 {
        flip(left.numbers[0], 0)
    }));
    assert!(noticed(|left| if left.of == "fill_back" && *left.refusal != 0 {
        flip(left.numbers[0], 0)
    }));
}

/// What an answer does not fill stays as it was.
#[test]
fn stores_behind_an_answer() {
    assert!(noticed(|left| if left.of == "fuse" && *left.refusal == 0 {
        last_of(left.numbers[0])
    }));
    assert!(noticed(|left| if left.of == "fuse" && *left.refusal == 0 {
        last_of(left.numbers[5])
    }));
    assert!(noticed(|mut left| if left.of == "fuse" && *left.refusal == 0 {
        last_of(values(&mut left))
    }));
    assert!(noticed(|left| if left.of == "fuse" && *left.refusal == 0 {
        last_of(left.bytes)
    }));
    assert!(noticed(|left| if left.of == "read" && *left.refusal == 0 {
        last_of(left.numbers[3])
    }));
    assert!(noticed(|left| if left.of == "write" && *left.refusal == 0 {
        last_of(left.bytes)
    }));
    assert!(noticed(|left| if left.of == "evaluate" && *left.refusal == 0 {
        last_of(left.numbers[0])
    }));
}

/// The values that a call told: the last of its numbers in either form.
fn values<'a>(left: &'a mut Answer<'_>) -> &'a mut [u64] {
    left.numbers.last_mut().expect("every call that is spoilt here tells values")
}

fn last_of<T: Copy + std::ops::BitXorAssign + From<u8>>(cells: &mut [T]) {
    flip(cells, cells.len().wrapping_sub(1));
}

/// A wrong function of the type that sides have: the right answer with one term changed.
#[test]
fn a_wrong_side() {
    let wrong: Fuse = |system, slots, room| match ours::fuse(system, slots, room) {
        Outcome::Fused(mut fused) => {
            fused.system.others[0][0][0][0].inner ^= 1;
            Outcome::Fused(fused)
        }
        other => other,
    };
    let system = examples::two_slots();
    assert_eq!(ours::fuse(&system, 2, MAX_WRITTEN), rules::fuse(&system, 2, MAX_WRITTEN));
    assert_ne!(wrong(&system, 2, MAX_WRITTEN), rules::fuse(&system, 2, MAX_WRITTEN));
    let spoil: fn(Answer<'_>) = |left| {
        if left.of == "fuse" {
            flip(left.numbers[0], 0)
        }
    };
    let mut third = Third::new(&spoilt(spoil));
    assert!(!faults_of_all(&system, 0, Some(&mut third), &mut Totals::default()).is_empty());
}

fn spoilt(spoil: fn(Answer<'_>)) -> Library {
    Library { spoil: Some(spoil), ..right() }
}

/// Damaged files: numbers, offsets, and stores after a refusal.
#[test]
fn damaged_files() {
    let differences = |spoil| damage::run_with(Ours::forms(&spoilt(spoil)), 0, 2).differences;
    assert_eq!(differences(|_| {}), 0);
    assert!(
        differences(|left| if *left.refusal == 1 {
            *left.refusal = 3
        }) > 100
    );
    assert!(
        differences(|mut left| if *left.refusal == 4 {
            values(&mut left)[0] += 3
        }) > 100
    );
    assert!(
        differences(|left| if *left.refusal == 5 {
            flip(left.dsts, 0)
        }) > 10
    );
    assert!(
        differences(|left| if *left.refusal == 0 {
            flip(left.numbers[0], 1)
        }) > 0
    );
}

/// Systems in memory: each of the four functions.
#[test]
fn systems_in_memory() {
    let differences = |spoil| stores::compare(&spoilt(spoil), 0, 2000).differences;
    assert_eq!(differences(|_| {}), 0);
    assert!(
        differences(|left| if left.of == "fuse" && *left.refusal == 3 {
            *left.refusal = 5
        }) > 100
    );
    assert!(
        differences(|left| if left.of == "fuse" && *left.refusal == 7 {
            *left.refusal = 8
        }) > 10
    );
    assert!(
        differences(|left| if left.of == "fuse" && *left.refusal == 11 {
            *left.refusal = 12
        }) > 2
    );
    assert!(
        differences(|left| if left.of == "fill_back" && *left.refusal == 13 {
            *left.refusal = 0
        }) > 100
    );
    assert!(
        differences(|left| if left.of == "write" && *left.refusal == 12 {
            *left.refusal = 14
        }) > 10
    );
    assert!(
        differences(|left| if left.of == "evaluate" && *left.refusal == 13 {
            *left.refusal = 12
        }) > 100
    );
    assert!(
        differences(|left| if left.of == "fuse" && *left.refusal != 0 {
            flip(left.dsts, 0)
        }) > 100
    );
}

/// `compose` and `push_inner`.
#[test]
fn shifts() {
    let differences = |spoil| {
        let mut ours = OurShifts::new(&spoilt(spoil));
        compare_our_compose(&mut ours).differences + compare_our_push(&mut ours, &[1, 200]).differences
    };
    assert_eq!(differences(|_| {}), 0);
    assert!(
        differences(|left| if left.of == "compose" && *left.refusal == 0 {
            flip(left.numbers[0], 1)
        }) > 0
    );
    assert!(
        differences(|left| if left.of == "compose" && *left.refusal == 4 {
            flip(left.numbers[0], 0)
        }) > 0
    );
    assert!(
        differences(|left| if left.of == "push_inner" && *left.refusal == 0 {
            flip(left.numbers[0], 2)
        }) > 0
    );
    assert!(
        differences(|left| if left.of == "push_inner" && *left.refusal == 4 {
            *left.refusal = 5
        }) > 0
    );
}

/// Five systems at each limit are made to be slow, and none goes over one.
#[test]
fn slow_systems() {
    for limit in ["wires", "definitions", "others", "terms read", "terms written", "depth"] {
        assert!(slow::SLOW.iter().filter(|slow| slow.limit == limit).count() >= 5, "{limit}");
    }
    for slow in &slow::SLOW {
        let system = (slow.make)();
        assert!(!house::is_full(&system), "{}", slow.name);
    }
}

/// Records: one spoilt in what was fused, in what was read, and after a refusal.
#[cfg(feature = "records")]
#[test]
fn records() {
    fn spoil(left: Answer<'_>, of: &str, refused: bool) {
        if left.of == of && (*left.refusal != 0) == refused {
            left.records.iter_mut().take(1).for_each(|record| record.rhs ^= 1);
        }
    }
    assert!(noticed(|left| spoil(left, "fuse", false)));
    assert!(noticed(|left| spoil(left, "fuse", true)));
    assert!(noticed(|left| spoil(left, "read", false)));
    assert!(noticed(|left| spoil(left, "read", true)));
    assert!(noticed(|left| if left.of == "fuse" {
        left.records.iter_mut().take(1).for_each(|record| record.dst ^= 1)
    }));
}
