//! Rust and rules on some systems of each kind; and that a difference would be seen.

use harness::{
    compare::{Totals, compare_kind, faults_of},
    examples,
    generate::{KINDS, kind_by_name, system, tiny},
    house,
    outcome::{Outcome, dump},
    replay, rules,
    system::{MAX_WRITTEN, System},
    vectors,
};

#[test]
fn all_kinds() {
    for (kind, entry) in KINDS.iter().enumerate() {
        let totals = compare_kind(kind, 1_000_000, if entry.large { 20 } else { 500 });
        assert_eq!(totals.differences, 0, "{}", entry.name);
    }
}

#[test]
fn examples_of_all_kinds() {
    for (name, system) in examples::all() {
        assert_eq!(faults_of(&system, &mut Totals::default()), Vec::<String>::new(), "{name}");
    }
}

/// The kinds reach what they are named for.
#[test]
fn kinds_are_what_they_are_called() {
    let totals = |name| compare_kind(kind_by_name(name).expect("a kind"), 0, 200);
    assert!(totals("drop").stranded > 100);
    assert!(totals("dead").stranded > 1000);
    assert!(totals("endless").endless > 10);
    assert!(totals("room").refused[usize::from(house::ROOM)] > 10);
    assert!(totals("limit").refused[usize::from(house::FULL)] > 10);
    let faulty = totals("faulty");
    assert!((8..=11).all(|refusal| faulty.refused[refusal] > 10), "{faulty}");
}

/// FNV-1a of a system's file.
fn digest(system: &System) -> u64 {
    let file = house::write(system).expect("small systems have no wide field");
    file.iter().fold(0xCBF2_9CE4_8422_2325, |sum, &byte| (sum ^ u64::from(byte)).wrapping_mul(0x100_0000_01B3))
}

/// Figures are given by seed, so a seed may not come to mean another system.
#[test]
fn a_seed_names_one_system_for_ever() {
    let digests: Vec<u64> = (0..9).map(|kind| digest(&system(kind, 1))).collect();
    assert_eq!(digests, DIGESTS);
}

const DIGESTS: [u64; 9] = [
    5046508607725447768,
    17277612939014348400,
    12715890372942128853,
    13907124852423044717,
    14927360260601359402,
    9103359328544634970,
    4999121891732570114,
    3067915958867771490,
    5333565877251848050,
];

/// The text tells outcomes apart that differ in one number.
#[test]
fn dumps_differ_where_outcomes_do() {
    let Outcome::Fused(fused) = rules::fuse(&examples::two_slots(), 2, MAX_WRITTEN) else { panic!("accepted") };
    let right = dump(&Outcome::Fused(fused.clone()));
    let mut wrong = fused.clone();
    wrong.system.others[0][0][0][0].outer += 1;
    assert_ne!(dump(&Outcome::Fused(wrong)), right);
    let mut wrong = fused;
    wrong.written += 1;
    assert_ne!(dump(&Outcome::Fused(wrong)), right);
}

/// The counted kind comes to each of its systems once.
#[test]
fn tiny_is_exhaustive() {
    let files: std::collections::HashSet<Vec<u8>> =
        (0..tiny::COUNT).map(|seed| house::write(&tiny::system(seed)).expect("no wide field")).collect();
    assert_eq!(files.len() as u64, tiny::COUNT);
}

/// The replay files say what the rules say, and one wrong byte of an answer is seen.
#[test]
fn vectors_replay() {
    let folder = std::env::temp_dir().join(format!("harness-vectors-{}", std::process::id()));
    vectors::write(&folder).expect("a temporary folder can be written");
    let replayed = replay::replay(&folder).expect("the files are there");
    assert!(replayed.vectors > 1000 && replayed.mismatches == 0, "{replayed:?}");
    let name = folder.join("fuse.bin");
    let mut bytes = std::fs::read(&name).expect("the file is there");
    *bytes.last_mut().expect("it has bytes") ^= 1;
    std::fs::write(&name, bytes).expect("the file can be written");
    assert_eq!(replay::replay(&folder).expect("the files are there").mismatches, 1);
    std::fs::remove_dir_all(folder).expect("the folder is ours");
}
