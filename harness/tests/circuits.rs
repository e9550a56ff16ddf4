//! The real circuits compute what they are named for: known answers, then random inputs, before and after fusing.

use harness::{
    bench::faults_of_circuit,
    circuits::{CIRCUITS, Circuit, blake, ghash, keccak, median, multiply, sha256},
    random::Random,
};

/// "abc" and the padding of a block, as big-endian words.
fn abc_block() -> [u32; 16] {
    let mut block = [0; 16];
    block[0] = 0x6162_6380;
    block[15] = 24;
    block
}

#[test]
fn sha256_of_abc() {
    let expected = [0xba7816bf, 0x8f01cfea, 0x414140de, 0x5dae2223, 0xb00361a3, 0x96177a9c, 0xb410ff61, 0xf20015ad];
    assert_eq!(sha256::plain(sha256::START, abc_block(), 64), expected);
    let circuit = sha256::build_at([sha256::START; 2], [abc_block(); 2], 64);
    let halves = expected.map(|word: u32| u64::from(word) << 32 | u64::from(word));
    assert_eq!(circuit.output_words(), halves);
    assert_eq!(harness::evaluate::broken(&circuit.system, &circuit.words), None);
}

#[test]
fn keccak_of_zeros() {
    let after = keccak::plain([0; 25], 24);
    assert_eq!(after[..3], [0xf1258f7940e1dde7, 0x84d5ccf933c0478a, 0xd598261ea65aa9ee]);
    assert_eq!(keccak::build_at([0; 25], 24).output_words(), after);
}

#[test]
fn blake2b_of_abc() {
    let mut block = [0; 16];
    block[0] = 0x0063_6261;
    let after = blake::plain_2b(blake::start_2b(), block, 3, true, 12);
    assert_eq!(after[..2], [0x0d4d_1c98_3fa5_80ba, 0xe9f6_129f_b697_276a]);
    assert_eq!(blake::build_2b_at(blake::start_2b(), block, 3, true, 12).output_words(), after);
}

/// The hash of no bytes: one block of zeros, flags for start, end and root.
#[test]
fn blake3_of_nothing() {
    let after = blake::plain_3(sha256::START, [0; 16], 0, 1 | 2 | 8, 7);
    assert_eq!(after[..2], [0xaf1349b9_u32, 0xf5f9a1a6].map(u32::swap_bytes));
    let circuit = blake::build_3_at([sha256::START; 2], [[0; 16]; 2], 0, 11, 7);
    assert_eq!(circuit.output_words()[0], u64::from(after[0]) << 32 | u64::from(after[0]));
}

/// Test case 2 of GCM's specification.
#[test]
fn ghash_of_one_block_and_its_length() {
    let key = 0x66e94bd4ef8a2c3b884cfa59ca342b2e;
    let blocks = [0x0388dace60b6a392f328c2b971b2fe78, 0x80];
    let expected = 0xf38cbb1ad69223dcc3457ae5b6b0f885;
    assert_eq!(ghash::plain(key, &blocks), expected);
    let out = ghash::build_at(key, &blocks).output_words();
    assert_eq!(out, [(expected >> 64) as u64, expected as u64]);
}

#[test]
fn medians() {
    assert_eq!(median::build_at(&[5, 1, 9]).output_words(), [5]);
    assert_eq!(median::build_at(&[u64::MAX, 0, u64::MAX - 1, 7]).output_words(), [0x8000_0000_0000_0002]);
    for count in 1..20 {
        let circuit = median::build(count, &mut Random::new(count as u64));
        assert_eq!(circuit.output_words(), circuit.expected, "{count} words");
    }
}

#[test]
fn products() {
    assert_eq!(multiply::build_at(&[u64::MAX], &[u64::MAX]).output_words(), [1, u64::MAX - 1]);
    let ones = [u64::MAX; 3];
    assert_eq!(multiply::plain(&ones, &ones), [1, 0, 0, u64::MAX - 1, u64::MAX, u64::MAX]);
    assert_eq!(multiply::build_at(&ones, &ones).output_words(), multiply::plain(&ones, &ones));
}

#[test]
fn at_random_inputs() {
    for sized in &CIRCUITS {
        for seed in 0..3 {
            let circuit = (sized.build)(3, &mut Random::new(seed));
            assert_eq!(faults_of_circuit(&circuit), Vec::<String>::new(), "{} {seed}", sized.name);
        }
    }
}

#[test]
fn the_greatest_sizes() {
    for sized in &CIRCUITS {
        let circuit = (sized.build)(sized.greatest(), &mut Random::new(1));
        assert_eq!(faults_of_circuit(&circuit), Vec::<String>::new(), "{}", sized.name);
    }
}

/// The system does not depend on the inputs.
#[test]
fn one_system_for_all_inputs() {
    for sized in &CIRCUITS {
        let systems = [1, 2].map(|seed| (sized.build)(2, &mut Random::new(seed)).system);
        assert_eq!(systems[0], systems[1], "{}", sized.name);
    }
}

/// A wrong word anywhere breaks a constraint, unless the wire's word counts nowhere.
#[test]
fn wrong_words_are_noticed() {
    let mut circuit: Circuit = sha256::build(2, &mut Random::new(0));
    let outputs = circuit.outputs.clone();
    for wire in outputs {
        circuit.words[usize::from(wire.0)] ^= 1;
        assert!(harness::evaluate::broken(&circuit.system, &circuit.words).is_some());
        circuit.words[usize::from(wire.0)] ^= 1;
    }
}
