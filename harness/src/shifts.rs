//! `compose`, `push_inner` and `apply`: the Rust's answers, dumped, digested, and compared with the rules'.

use binius_core::{
    constraint_system::{Composition, Shift},
    word::Word,
};
use binius_frontend::lower::{PushInner, push_inner};

use crate::{
    house::{SHIFT, is_shift},
    lent::Lent,
    library::{self, Library},
    oracle::{number_of, shift_of},
    rules::shift as rules,
};

/// The numbers of all valid shifts, rising.
pub fn valid_shifts() -> Vec<u16> {
    (0..512).filter(|&number| is_shift(number)).collect()
}

pub fn rust_compose(inner: u16, outer: u16) -> rules::Composition {
    match Shift::compose(shift_of(inner), shift_of(outer)) {
        Composition::Single(single) => rules::Composition::Single(number_of(single)),
        Composition::Zero => rules::Composition::Zero,
        Composition::Pair => rules::Composition::Pair,
    }
}

pub fn rust_push(sequence: [u16; 2], by: u16, slots: usize) -> rules::Pushed {
    match push_inner(sequence.map(shift_of), shift_of(by), slots) {
        PushInner::Seq(pushed) => rules::Pushed::Seq(pushed.map(number_of)),
        PushInner::Zero => rules::Pushed::Zero,
        PushInner::OverBudget => rules::Pushed::OverBudget,
    }
}

pub fn rust_apply(by: u16, word: u64) -> u64 {
    shift_of(by).apply(Word(word)).0
}

/// How often each case came, and a digest of the answers in order, as crates/replay_shift/specs/Tallies.antt has it.
#[derive(Default)]
struct Tally {
    cases: [u64; 3],
    digest: u64,
}

impl Tally {
    fn count(&mut self, case: usize) {
        self.cases[case] += 1;
        self.mix(case as u64);
    }

    fn mix(&mut self, value: u64) {
        self.digest = churn(self.digest ^ value).wrapping_add(0x9E37_79B9_7F4A_7C15);
    }

    fn note_composition(&mut self, composition: rules::Composition) {
        match composition {
            rules::Composition::Single(single) => {
                self.count(0);
                self.mix(single.into());
            }
            rules::Composition::Zero => self.count(1),
            rules::Composition::Pair => self.count(2),
        }
    }

    fn note_push(&mut self, pushed: rules::Pushed) {
        match pushed {
            rules::Pushed::Seq([inner, outer]) => {
                self.count(0);
                self.mix(inner.into());
                self.mix(outer.into());
            }
            rules::Pushed::Zero => self.count(1),
            rules::Pushed::OverBudget => self.count(2),
        }
    }
}

fn churn(word: u64) -> u64 {
    let a = word ^ (word << 13);
    let b = a ^ (a >> 7);
    b ^ (b << 17)
}

/// Words at which a sign or a half begins and ends, then 292 more.
pub fn words() -> Vec<u64> {
    let mut words = vec![
        0,
        1,
        0x7FFF_FFFF_FFFF_FFFF,
        0x8000_0000_0000_0000,
        u64::MAX,
        0x7FFF_FFFF,
        0x8000_0000,
        0xFFFF_FFFF_0000_0000,
    ];
    let mut word = 0x0123_4567_89AB_CDEF;
    for _ in 0..292 {
        word = churn(word);
        words.push(word);
    }
    words
}

/// The first three lines of crates/replay_shift/stdout, from the Rust.
pub fn digest_lines() -> String {
    let compose = compose_tally();
    let push = push_tally();
    let [single, zero, pair] = compose.cases;
    let [seq, cleared, over] = push.cases;
    format!(
        "compose single {single} zero {zero} pair {pair} digest {}\n\
         push seq {seq} zero {cleared} over {over} digest {}\n\
         apply digest {}\n",
        compose.digest,
        push.digest,
        apply_tally().digest
    )
}

fn compose_tally() -> Tally {
    let mut tally = Tally::default();
    let valid = valid_shifts();
    for &inner in &valid {
        for &outer in &valid {
            tally.note_composition(rust_compose(inner, outer));
        }
    }
    tally
}

fn push_tally() -> Tally {
    let mut tally = Tally::default();
    let valid = valid_shifts();
    for i in 0..384 {
        for o in 0..384 {
            for third in (0..6).map(|k| (37 * i + 101 * o + 53 * k + 11) % 384) {
                for slots in 0..4 {
                    tally.note_push(rust_push([valid[i], valid[o]], valid[third], slots));
                }
            }
        }
    }
    tally
}

fn apply_tally() -> Tally {
    let mut tally = Tally::default();
    for word in words() {
        for &by in &valid_shifts() {
            tally.mix(rust_apply(by, word));
        }
    }
    tally
}

/// Every pair of valid shifts, one a line.
pub fn print_compose() {
    for &inner in &valid_shifts() {
        for &outer in &valid_shifts() {
            match rust_compose(inner, outer) {
                rules::Composition::Single(single) => println!("{inner} {outer} single {single}"),
                rules::Composition::Zero => println!("{inner} {outer} zero"),
                rules::Composition::Pair => println!("{inner} {outer} pair"),
            }
        }
    }
}

/// Every push into the sequences with this inner shift, one a line: inner, outer, shift, slots.
pub fn print_push(inner: u16) {
    for &outer in &valid_shifts() {
        for &by in &valid_shifts() {
            for slots in 0..4 {
                match rust_push([inner, outer], by, slots) {
                    rules::Pushed::Seq([a, b]) => println!("{inner} {outer} {by} {slots} seq {a} {b}"),
                    rules::Pushed::Zero => println!("{inner} {outer} {by} {slots} zero"),
                    rules::Pushed::OverBudget => println!("{inner} {outer} {by} {slots} over"),
                }
            }
        }
    }
}

/// Every valid shift of one word, one a line.
pub fn print_apply(word: u64) {
    for &by in &valid_shifts() {
        println!("{by} {:016x}", rust_apply(by, word));
    }
}

/// Calls made and differences found.
#[derive(Debug, Default, PartialEq, Eq)]
pub struct Tried {
    pub calls: u64,
    pub differences: u64,
}

impl Tried {
    fn note(&mut self, equal: bool, what: impl FnOnce() -> String) {
        self.calls += 1;
        if !equal {
            self.differences += 1;
            println!("difference: {}", what());
        }
    }
}

/// `compose` and `push_inner` of the project's own library, over values that are watched.
pub struct OurShifts {
    library: Library,
    values: Lent<u64>,
}

impl OurShifts {
    pub fn new(library: &Library) -> Self {
        Self { library: *library, values: Lent::default() }
    }

    pub fn linked() -> Option<Self> {
        library::linked().map(Self::new)
    }

    /// Whether an answer is 0 with these values, of which as many are told as are lent.
    fn told(&self, answer: u8, expected: &[u64]) -> bool {
        let lent = self.values.cells();
        let told = expected.len().min(lent.len());
        answer == 0 && lent[..told] == expected[..told] && self.values.keeps(&[], told)
    }

    fn refused(&self, answer: u8) -> bool {
        answer == SHIFT && self.values.keeps(&[], 0)
    }

    fn composes(&mut self, inner: u64, outer: u64, lent: usize, expected: Option<rules::Composition>) -> bool {
        self.values.lay(&[], lent);
        let answer = self.library.compose(inner, outer, self.values.cells_mut());
        match expected {
            Some(rules::Composition::Single(single)) => self.told(answer, &[0, single.into()]),
            Some(rules::Composition::Zero) => self.told(answer, &[1]),
            Some(rules::Composition::Pair) => self.told(answer, &[2]),
            None => self.refused(answer),
        }
    }

    fn pushes(
        &mut self,
        [inner, outer, by]: [u64; 3],
        slots: u64,
        lent: usize,
        expected: Option<rules::Pushed>,
    ) -> bool {
        self.values.lay(&[], lent);
        let answer = self.library.push_inner(inner, outer, by, slots, self.values.cells_mut());
        match expected {
            Some(rules::Pushed::Seq([inner, outer])) => self.told(answer, &[0, inner.into(), outer.into()]),
            Some(rules::Pushed::Zero) => self.told(answer, &[1]),
            Some(rules::Pushed::OverBudget) => self.told(answer, &[2]),
            None => self.refused(answer),
        }
    }
}

/// Numbers around which a shift's number begins and ceases to be valid, and numbers of more than 16 bits.
fn odd_numbers() -> Vec<u64> {
    let all = (0..600).chain([65_535, 65_536, 65_537, 1 << 32, 1 << 32 | 5, u64::MAX]);
    all.filter(|&number| !is_valid(number)).collect()
}

fn is_valid(number: u64) -> bool {
    u16::try_from(number).is_ok_and(is_shift)
}

/// Ours on every pair of valid shifts, as the Rust; and on numbers that are none, where it has to refuse.
pub fn compare_our_compose(ours: &mut OurShifts) -> Tried {
    let mut tried = Tried::default();
    for &inner in &valid_shifts() {
        for &outer in &valid_shifts() {
            let expected = rust_compose(inner, outer);
            for lent in 0..4 {
                let equal = ours.composes(inner.into(), outer.into(), lent, Some(expected));
                tried.note(equal, || format!("compose({inner}, {outer}), {lent} values"));
            }
        }
    }
    for &odd in &odd_numbers() {
        for number in (0..600).chain([odd, u64::MAX]) {
            for [inner, outer] in [[odd, number], [number, odd]] {
                let equal = ours.composes(inner, outer, 3, None);
                tried.note(equal, || format!("compose({inner}, {outer})"));
            }
        }
    }
    tried
}

/// Ours on every triple of valid shifts with these inner ones, slots 0 to 3 and some greater, as the Rust; and on numbers that are no
/// shifts.
pub fn compare_our_push(ours: &mut OurShifts, inners: &[u16]) -> Tried {
    let mut tried = Tried::default();
    let valid = valid_shifts();
    for &inner in inners {
        for &outer in &valid {
            for &by in &valid {
                let numbers = [inner, outer, by].map(u64::from);
                for slots in 0..4 {
                    let expected = rust_push([inner, outer], by, slots);
                    let equal = ours.pushes(numbers, slots as u64, 3, Some(expected));
                    tried.note(equal, || format!("push_inner({numbers:?}, {slots})"));
                }
            }
            let by = valid[(usize::from(inner) * 7 + usize::from(outer) * 13) % valid.len()];
            let numbers = [inner, outer, by].map(u64::from);
            for (slots, as_slots) in [(1, 1), (2, 2), (4, 3), (1 << 32, 3), (u64::MAX, 3)] {
                let expected = rust_push([inner, outer], by, as_slots);
                for lent in [0, 1, 2, 5] {
                    let equal = ours.pushes(numbers, slots, lent, Some(expected));
                    tried.note(equal, || format!("push_inner({numbers:?}, {slots}), {lent} values"));
                }
            }
        }
    }
    for &odd in &odd_numbers() {
        for number in (0..600).step_by(7) {
            for numbers in [[odd, number, 0], [number, odd, 1], [0, number, odd], [odd, odd, number]] {
                for slots in 0..4 {
                    let equal = ours.pushes(numbers, slots, 3, None);
                    tried.note(equal, || format!("push_inner({numbers:?}, {slots})"));
                }
            }
        }
    }
    tried
}

/// Rust and rules on every pair; and that Single and Zero have the meaning of the two shifts, on all words of `words`.
pub fn compare_compose() -> Tried {
    let mut tried = Tried::default();
    for &inner in &valid_shifts() {
        for &outer in &valid_shifts() {
            let rust = rust_compose(inner, outer);
            let equal = rust == rules::compose(inner, outer) && has_meaning(rust, inner, outer);
            tried.note(equal, || format!("compose({inner}, {outer})"));
        }
    }
    tried
}

fn has_meaning(composition: rules::Composition, inner: u16, outer: u16) -> bool {
    let both = |word| rust_apply(outer, rust_apply(inner, word));
    let mut some = words().into_iter().step_by(7);
    match composition {
        rules::Composition::Single(single) => some.all(|word| rust_apply(single, word) == both(word)),
        rules::Composition::Zero => some.all(|word| both(word) == 0),
        rules::Composition::Pair => true,
    }
}

/// Rust and rules on every triple of valid shifts, slots 0 to 3.
pub fn compare_push() -> Tried {
    let mut tried = Tried::default();
    let valid = valid_shifts();
    for &inner in &valid {
        for &outer in &valid {
            for &by in &valid {
                for slots in 0..4 {
                    let sequence = [inner, outer];
                    let equal = rust_push(sequence, by, slots) == rules::push_inner(sequence, by, slots);
                    tried.note(equal, || format!("push_inner({sequence:?}, {by}, {slots})"));
                }
            }
        }
    }
    tried
}

/// Rust and rules on every valid shift of 300 words.
pub fn compare_apply() -> Tried {
    let mut tried = Tried::default();
    for word in words() {
        for &by in &valid_shifts() {
            let equal = rust_apply(by, word) == rules::apply(by, word);
            tried.note(equal, || format!("apply({by}, {word:016x})"));
        }
    }
    tried
}
