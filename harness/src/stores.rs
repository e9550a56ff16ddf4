//! Systems in memory with any numbers in them: the four functions that take one, against 01's numbers in their order.
//!
//! A generated system is scattered over its stores, with junk between its terms and behind its lists, and then some numbers are changed.

use std::{fmt, time::Instant};

use crate::{
    checks::{check, check_definitions},
    compare::agree,
    evaluate, generate, house,
    house::{ROOM, Refusal, SIZE, SLOTS},
    library::{Library, Sizes},
    memory::Memory,
    oracle,
    ours::{Image, Length, NEW_STORE, Ours, Source, operand_number, outcome_of, system_of, term_number},
    outcome::{Outcome, dump},
    random::Random,
    rules,
    system::{KINDS, MAX_TERMS, MAX_WIRES, MAX_WRITTEN, Operand, System},
    third::fault_of_given,
};

/// Kinds that systems are drawn from, and the large ones, drawn more rarely.
const SMALL: [&str; 9] = ["dense", "chain", "join", "drop", "dead", "identity", "doubled", "mixed", "faulty"];
const LARGE: [&str; 3] = ["wide", "limit", "room"];

/// A call's input in memory.
pub struct Case {
    image: Image,
    slots: u64,
    room: usize,
    flags: usize,
    /// Lengths of an assignment, and of flags that are read.
    words: usize,
    read_flags: usize,
    seed: u64,
}

/// The case of a seed.
pub fn case(seed: u64) -> Case {
    let mut random = Random::of(1000, seed);
    let names = if random.below(200) == 0 { LARGE.as_slice() } else { &SMALL };
    let kind = generate::kind_by_name(*random.pick::<&str>(names)).expect("a kind");
    let mut image = scattered(&generate::system(kind, seed), &mut random);
    if random.below(400) == 0 {
        widen(&mut image, &mut random);
    }
    for _ in 0..random.below(4) {
        change(&mut image, &mut random);
    }
    let wires = image.sizes.wires.min(2 * MAX_WIRES);
    let mut about = |need: usize| match random.below(16) {
        0 => need.saturating_sub(1),
        1 => need + 1,
        2 => 0,
        _ => need,
    };
    let (flags, words, read_flags) = (about(wires), about(wires), about(wires));
    let slots =
        if random.percent(90) { 1 + random.word() % 2 } else { *random.pick(&[0, 3, 4, 1 << 32 | 1, u64::MAX]) };
    let room = if random.percent(70) { MAX_WRITTEN } else { random.below(60) };
    Case { image, slots, room, flags, words, read_flags, seed }
}

/// A system with its operands anywhere in two stores.
fn scattered(system: &System, random: &mut Random) -> Image {
    let mut image = Image::default();
    image.sizes = Sizes { wires: system.wires, ..Sizes::default() };
    let junk = random.below(2) * 4;
    let in_new = *random.pick(&[0, 0, 40]);
    let place = |random: &mut Random, image: &mut Image, operand: &Operand| {
        let new = random.percent(in_new);
        let store = if new { &mut image.new } else { &mut image.old };
        let before = random.below(junk + 1);
        store.extend((0..before).map(|_| random.word()));
        let start = store.len();
        store.extend(operand.iter().map(term_number));
        operand_number(start, operand.len()) | if new { NEW_STORE } else { 0 }
    };
    // The stores are filled in another order than the lists name them in.
    let mut definitions: Vec<usize> = (0..system.linears.len()).collect();
    random.shuffle(&mut definitions);
    image.dsts = system.linears.iter().map(|definition| definition.dst).collect();
    image.rhss = vec![0; definitions.len()];
    for at in definitions {
        image.rhss[at] = place(random, &mut image, &system.linears[at].rhs);
    }
    for kind in 0..KINDS {
        for operand in system.others[kind].iter().flatten() {
            let number = place(random, &mut image, operand);
            image.rows[kind].push(number);
        }
        image.sizes.counts[kind] = system.others[kind].len();
        let behind = random.below(junk + 1);
        image.rows[kind].extend((0..behind).map(|_| random.word()));
    }
    image.sizes.counts[KINDS] = system.linears.len();
    for _ in 0..random.below(junk + 1) {
        image.dsts.push(random.word() as u16);
        image.rhss.push(random.word());
    }
    image
}

/// An operand around the widest that a record can have: 65,535 bytes, six for each term.
fn widen(image: &mut Image, random: &mut Random) {
    let start = image.old.len();
    let wires = image.sizes.wires;
    let len = random.between(10_915, 10_925);
    image.old.extend((0..len).map(|_| random.below(wires) as u64));
    let lists = image.rows.iter_mut().chain([&mut image.rhss]).filter(|list| !list.is_empty());
    let mut lists: Vec<_> = lists.collect();
    if let Some(operand) = pick_mut(&mut lists, random).and_then(|list| pick_mut(list, random)) {
        *operand = operand_number(start, len);
    }
}

fn pick_mut<'a, T>(cells: &'a mut [T], random: &mut Random) -> Option<&'a mut T> {
    let at = random.below(cells.len().max(1));
    cells.get_mut(at)
}

/// One number is changed, or a store cut by a cell.
fn change(image: &mut Image, random: &mut Random) {
    let wires = image.sizes.wires as u64;
    match random.below(12) {
        0..=3 => {
            let store = if random.percent(80) { &mut image.old } else { &mut image.new };
            if let Some(term) = pick_mut(store, random) {
                change_term(term, wires, random);
            }
        }
        4..=6 => {
            let lists = image.rows.iter_mut().chain([&mut image.rhss]).filter(|list| !list.is_empty());
            let mut lists: Vec<_> = lists.collect();
            if let Some(operand) = pick_mut(&mut lists, random).and_then(|list| pick_mut(list, random)) {
                change_operand(operand, image.old.len(), random);
            }
        }
        7 => {
            let other = image.dsts.first().copied().unwrap_or(0);
            let any = random.below(20) as u16;
            let wire = *random.pick(&[wires as u16, u16::MAX, 0, other, any]);
            pick_mut(&mut image.dsts, random).into_iter().for_each(|dst| *dst = wire);
        }
        8 => {
            let at = random.below(5);
            let count = &mut image.sizes.counts[at];
            let some = [count.wrapping_add(1), count.saturating_sub(1), 0, 1025, usize::MAX, usize::MAX / 3 + 1];
            *count = *random.pick(&some);
        }
        9 => {
            let some =
                [0, 1, 4096, 4097, usize::MAX, image.sizes.wires.saturating_sub(1), image.sizes.wires.wrapping_add(1)];
            image.sizes.wires = *random.pick(&some);
        }
        10 => {
            let at = random.below(6);
            match at {
                4 => drop(image.dsts.pop()),
                5 => drop(image.rhss.pop()),
                _ => drop(image.rows[at].pop()),
            }
        }
        _ => drop(if random.percent(70) { image.old.pop() } else { image.new.pop() }),
    }
}

fn change_term(term: &mut u64, wires: u64, random: &mut Random) {
    let odd = *random.pick(&[288, 319, 352, 383, 447, 480, 511, 512, 65_535, 0, 64, 448, 65]);
    *term = match random.below(6) {
        0 => *term & !0xFFFF | *random.pick(&[wires & 0xFFFF, 0xFFFF, 0, 1]),
        1 => *term & !0xFFFF_0000 | odd << 16,
        2 => *term & 0xFFFF_FFFF | odd << 32,
        3 => *term | 1 << random.between(41, 63),
        4 => random.word() >> random.below(64),
        _ => *term ^ 1 << random.below(64),
    };
}

fn change_operand(operand: &mut u64, old: usize, random: &mut Random) {
    let old = old as u64;
    *operand = match random.below(7) {
        0 => *operand ^ NEW_STORE,
        1 => operand.wrapping_add(1),
        2 => old << 32,
        3 => (old + 1) << 32,
        4 => *operand & !0xFFFF_FFFF,
        5 => random.word() >> random.below(64),
        _ => *operand ^ 1 << random.below(64),
    };
}

/// What runs came to: answers of fusing by number, and systems that a function refused or not.
#[derive(Default)]
pub struct Totals {
    pub cases: u64,
    pub differences: u64,
    pub fused: [u64; 16],
    pub filled: [u64; 16],
    pub written: [u64; 16],
    pub evaluated: [u64; 16],
    pub seconds: f64,
}

impl fmt::Display for Totals {
    fn fmt(&self, f: &mut fmt::Formatter<'_>) -> fmt::Result {
        writeln!(f, "cases {} differences {} seconds {:.1}", self.cases, self.differences, self.seconds)?;
        let rows = [
            ("fused", self.fused),
            ("filled back", self.filled),
            ("written", self.written),
            ("evaluated", self.evaluated),
        ];
        for (name, answers) in rows {
            write!(f, "{name}:")?;
            for (answer, count) in answers.iter().enumerate().filter(|(_, count)| **count > 0) {
                write!(f, " {answer} x {count}")?;
            }
            writeln!(f)?;
        }
        Ok(())
    }
}

fn note<T>(answers: &mut [u64; 16], expected: &Result<T, Refusal>) {
    answers[usize::from(expected.as_ref().err().copied().unwrap_or(0))] += 1;
}

/// Compares the cases of `count` seeds.
pub fn compare(library: &Library, first: u64, count: u64) -> Totals {
    let start = Instant::now();
    let mut forms = Ours::forms(library);
    let mut totals = Totals::default();
    for seed in first..first + count {
        totals.cases += 1;
        let case = case(seed);
        for ours in &mut forms {
            for fault in faults_of(ours, &case, &mut totals) {
                totals.differences += 1;
                println!("difference: memory seed {seed}, {:?}: {fault}", ours.form());
            }
        }
    }
    totals.seconds = start.elapsed().as_secs_f64();
    totals
}

/// Everything that is wrong about the answers to a case, in words.
pub fn faults_of(ours: &mut Ours, case: &Case, totals: &mut Totals) -> Vec<String> {
    let alone = Memory::of(&case.image, false, MAX_TERMS as u64).check().and_then(|()| system_in(&case.image, &[]));
    let both = Memory::of(&case.image, true, (MAX_TERMS + MAX_WRITTEN) as u64).check();
    let both = both.and_then(|()| system_in(&case.image, &case.image.new));
    let faults = [
        fault_of_fusing(ours, case, &alone, totals),
        fault_of_filling(ours, case, &alone, totals),
        fault_of_writing(ours, case, &both, totals),
        fault_of_evaluating(ours, case, &both, totals),
    ];
    faults.into_iter().flatten().collect()
}

fn system_in(image: &Image, new: &[u64]) -> Result<System, Refusal> {
    Ok(system_of(&image.old, new, image.lists(), image.sizes).expect("the places were checked"))
}

fn fault_of_fusing(
    ours: &mut Ours,
    case: &Case,
    system: &Result<System, Refusal>,
    totals: &mut Totals,
) -> Option<String> {
    let slots = usize::try_from(case.slots).expect("a machine of 64 bits");
    let (by_rust, by_rules) = match system {
        Err(refusal) => (Outcome::Refused(*refusal), Outcome::Refused(*refusal)),
        Ok(_) if !(1..=2).contains(&slots) => (Outcome::Refused(SLOTS), Outcome::Refused(SLOTS)),
        Ok(system) => {
            let room = case.room.min(MAX_WRITTEN);
            let short = case.flags < system.wires && check(system, slots).is_ok();
            let refused = || (Outcome::Refused(ROOM), Outcome::Refused(ROOM));
            let fused = || (oracle::fuse(system, slots, room), rules::fuse(system, slots, room));
            if short { refused() } else { fused() }
        }
    };
    let answer = match &by_rules {
        Outcome::Refused(refusal) => *refusal,
        _ => 0,
    };
    totals.fused[usize::from(answer)] += 1;
    let given = outcome_of(ours.fuse(&case.image, case.slots, case.room, case.flags, Length::Exact));
    let right = agree(&given, &by_rust) && given == by_rules;
    (!right).then(|| format!("fusing: {}not:\n{}{:?}", dump(&given), dump(&by_rules), case.image))
}

fn words_of(case: &Case, count: usize) -> Vec<u64> {
    let mut random = Random::new(case.seed);
    (0..count).map(|_| random.word()).collect()
}

fn fault_of_filling(
    ours: &mut Ours,
    case: &Case,
    system: &Result<System, Refusal>,
    totals: &mut Totals,
) -> Option<String> {
    let words = words_of(case, case.words);
    let flags: Vec<u8> = (0..case.read_flags).map(|at| (case.seed >> (at % 60)) as u8 & 5).collect();
    let expected = system.as_ref().map_err(|refusal| *refusal).and_then(|system| {
        check_definitions(system)?;
        if words.len() != system.wires || flags.len() != system.wires {
            return Err(SIZE);
        }
        let committed: Vec<bool> = flags.iter().map(|&flag| flag != 0).collect();
        let mut filled = words.clone();
        evaluate::fill_back(system, &committed, &mut filled);
        Ok(filled)
    });
    note(&mut totals.filled, &expected);
    let fault = fault_of_given(ours.fill_back(&case.image, &flags, &words), expected.as_ref());
    fault.map(|fault| format!("filling back: {fault} {:?}", case.image))
}

fn fault_of_writing(
    ours: &mut Ours,
    case: &Case,
    system: &Result<System, Refusal>,
    totals: &mut Totals,
) -> Option<String> {
    let file = system.as_ref().map_err(|refusal| *refusal).and_then(house::write);
    let need = file.as_ref().map_or(0, Vec::len);
    let room = room_for(case, need);
    let expected = file.and_then(|file| if room < need { Err(ROOM) } else { Ok(file) });
    note(&mut totals.written, &expected);
    let fault = fault_of_given(ours.write(Source::Image(&case.image), room, 1), expected.as_ref());
    fault.map(|fault| format!("writing: {fault} {:?}", case.image))
}

fn fault_of_evaluating(
    ours: &mut Ours,
    case: &Case,
    system: &Result<System, Refusal>,
    totals: &mut Totals,
) -> Option<String> {
    let words = words_of(case, case.words);
    let need = system.as_ref().map_or(0, |system| system.operands().count());
    let room = room_for(case, need);
    let expected = system.as_ref().map_err(|refusal| *refusal).and_then(|system| {
        if words.len() != system.wires {
            return Err(SIZE);
        }
        if room < need { Err(ROOM) } else { Ok(evaluate::values(system, &words)) }
    });
    note(&mut totals.evaluated, &expected);
    let fault = fault_of_given(ours.evaluate(Source::Image(&case.image), &words, room, 1), expected.as_ref());
    fault.map(|fault| format!("evaluating: {fault} {:?}", case.image))
}

/// Mostly enough; one cell too few, and none, by seed.
fn room_for(case: &Case, need: usize) -> usize {
    match case.seed % 16 {
        0 => need.saturating_sub(1),
        1 => 0,
        2..=8 => need,
        _ => need + 3,
    }
}
