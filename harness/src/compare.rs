//! Rust against rules on generated systems, the project's own library against both where it is linked, and what fusing must leave true.

use std::{fmt, time::Instant};

use crate::{
    evaluate,
    generate::{self, KINDS},
    house::{self, CIRCLE, DOUBLE, TWICE},
    oracle,
    ours::Calls,
    outcome::{Fused, Outcome, dump, dump_lists},
    random::Random,
    rules,
    system::{Constraint, MAX_WRITTEN, REPORT_ROOM, System},
    third::Third,
};

/// What runs came to.
#[derive(Default)]
pub struct Totals {
    pub systems: u64,
    pub runs: u64,
    pub fused: u64,
    pub endless: u64,
    pub refused: [u64; 16],
    pub differences: u64,
    pub committed: u64,
    pub gone: u64,
    pub stranded: u64,
    pub written: u64,
    /// Calls of the project's own library.
    pub ours: Calls,
    pub seconds: f64,
}

impl Totals {
    pub fn add(&mut self, other: &Self) {
        self.systems += other.systems;
        self.runs += other.runs;
        self.fused += other.fused;
        self.endless += other.endless;
        for (sum, more) in self.refused.iter_mut().zip(other.refused) {
            *sum += more;
        }
        self.differences += other.differences;
        self.committed += other.committed;
        self.gone += other.gone;
        self.stranded += other.stranded;
        self.written += other.written;
        self.ours.add(&other.ours);
        self.seconds += other.seconds;
    }

    fn note(&mut self, outcome: &Outcome) {
        self.runs += 1;
        match outcome {
            Outcome::Unread(fault) => self.refused[usize::from(fault.refusal)] += 1,
            Outcome::Refused(refusal) => self.refused[usize::from(*refusal)] += 1,
            Outcome::Fused(fused) => self.note_fused(fused),
            Outcome::Endless { .. } => self.endless += 1,
            Outcome::Panicked(_) => {}
        }
    }

    fn note_fused(&mut self, fused: &Fused) {
        self.fused += 1;
        self.committed += fused.committed.len() as u64;
        self.gone += fused.gone.len() as u64;
        self.stranded += fused.stranded.len() as u64;
        self.written += fused.written as u64;
    }
}

impl fmt::Display for Totals {
    fn fmt(&self, f: &mut fmt::Formatter<'_>) -> fmt::Result {
        write!(
            f,
            "systems {} runs {} differences {} fused {} endless {} committed {} gone {} stranded {} written {}",
            self.systems,
            self.runs,
            self.differences,
            self.fused,
            self.endless,
            self.committed,
            self.gone,
            self.stranded,
            self.written
        )?;
        for (refusal, count) in self.refused.iter().enumerate().filter(|(_, count)| **count > 0) {
            write!(f, " refused-{refusal} {count}")?;
        }
        if self.ours != Calls::default() {
            let Calls { reads, fuses, writes, evaluations, fill_backs } = self.ours;
            write!(f, " ours-read {reads} fused {fuses} written {writes}")?;
            write!(f, " evaluated {evaluations} filled-back {fill_backs}")?;
        }
        write!(f, " seconds {:.1}", self.seconds)
    }
}

/// Compares `count` systems of a kind, from a first seed on, at one slot and at two.
pub fn compare_kind(kind: usize, first: u64, count: u64) -> Totals {
    compare_kind_with(Third::linked().as_mut(), kind, first, count)
}

/// The same with this library as the third side.
pub fn compare_kind_with(mut third: Option<&mut Third>, kind: usize, first: u64, count: u64) -> Totals {
    let mut totals = Totals::default();
    let start = Instant::now();
    for seed in first..first + count {
        let system = generate::system(kind, seed);
        totals.systems += 1;
        for fault in faults_of_all(&system, seed, third.as_deref_mut(), &mut totals) {
            totals.differences += 1;
            println!("difference: kind {} seed {seed}: {fault}", KINDS[kind].name);
        }
    }
    totals.ours = third.map(Third::take_calls).unwrap_or_default();
    totals.seconds = start.elapsed().as_secs_f64();
    totals
}

/// Everything that is wrong about fusing one system, in words.
pub fn faults_of(system: &System, totals: &mut Totals) -> Vec<String> {
    faults_of_all(system, 0, Third::linked().as_mut(), totals)
}

/// The same with this library as the third side, and a seed for what it is lent.
pub fn faults_of_all(system: &System, seed: u64, third: Option<&mut Third>, totals: &mut Totals) -> Vec<String> {
    let mut faults = Vec::new();
    let by_rules = [1, 2].map(|slots| rules::fuse(system, slots, MAX_WRITTEN));
    let by_rust = [1, 2].map(|slots| oracle::fuse(system, slots, MAX_WRITTEN));
    for slots in 1..=2 {
        let [by_rules, by_rust] = [&by_rules[slots - 1], &by_rust[slots - 1]];
        totals.note(by_rust);
        faults.extend(fault_of_run(system, slots, by_rules, by_rust));
        if let Outcome::Fused(fused) = by_rules {
            faults.extend(fault_of_room(system, slots, fused));
        }
    }
    faults.extend(fault_of_file(system));
    if let Some(third) = third {
        faults.extend(third.faults_of(system, &by_rules, &by_rust, seed));
    }
    faults
}

fn fault_of_run(system: &System, slots: usize, by_rules: &Outcome, by_rust: &Outcome) -> Option<String> {
    if !agree(by_rules, by_rust) {
        let (rules, rust) = (dump(by_rules), dump(by_rust));
        return Some(format!("slots {slots}\n{}rules:\n{rules}Rust:\n{rust}", dump_lists(system)));
    }
    match by_rules {
        Outcome::Fused(fused) => fault_of_values(system, fused),
        Outcome::Refused(refusal) => fault_of_refusal(system, slots, *refusal),
        _ => None,
    }
}

/// Whether a side agrees with the Rust. Where the Rust is not run to its end, its decision and the number of its terms are compared, and no lists.
pub fn agree(by_rules: &Outcome, by_rust: &Outcome) -> bool {
    match (by_rules, by_rust) {
        (Outcome::Fused(fused), Outcome::Endless { committed, written }) => {
            fused.committed == *committed && fused.written == *written
        }
        _ => by_rules == by_rust,
    }
}

/// The Rust panics where 01 refuses with TWICE or DOUBLE, and its graph has a circle where 01 refuses with CIRCLE.
fn fault_of_refusal(system: &System, slots: usize, refusal: house::Refusal) -> Option<String> {
    let agrees = match refusal {
        TWICE | DOUBLE => oracle::decision_panics(system, slots),
        CIRCLE => oracle::graph_is_cyclic(system),
        _ => true,
    };
    (!agrees).then(|| format!("the Rust finds nothing wrong where 01 refuses with {refusal}\n{}", dump_lists(system)))
}

/// A room that is exactly filled is enough, and one less is not. `fusereport`'s room is tried on both sides.
fn fault_of_room(system: &System, slots: usize, fused: &Fused) -> Option<String> {
    let exact = rules::fuse(system, slots, fused.written);
    let fits = matches!(&exact, Outcome::Fused(again) if again == fused);
    let short = fused.written == 0 || rules::fuse(system, slots, fused.written - 1) == Outcome::Refused(house::ROOM);
    let report_agrees = agree(&rules::fuse(system, slots, REPORT_ROOM), &oracle::fuse(system, slots, REPORT_ROOM));
    (!fits || !short || !report_agrees).then(|| format!("slots {slots}: a room of {} terms", fused.written))
}

/// The system survives being written and read, if it may be.
fn fault_of_file(system: &System) -> Option<String> {
    let bytes = house::write(system).ok()?;
    let full = house::is_full(system);
    match house::read(&bytes) {
        Ok(read) if !full && read == *system => None,
        Err(fault) if full && fault.refusal == house::FULL => None,
        read => Some(format!("written and read: {:?}", read.map(|_| "another system"))),
    }
}

/// Demand 3: at words that the definitions hold at, every operand keeps its value; and filling back gives the words again.
fn fault_of_values(system: &System, fused: &Fused) -> Option<String> {
    let mut random = Random::new(fused.written as u64);
    let words = evaluate::solved(system, || random.word());
    if expected_values(system, fused, &words) != evaluate::values(&fused.system, &words) {
        return Some(format!("an operand changed its value\n{}", dump_lists(system)));
    }
    let mut committed = vec![false; system.wires];
    for &wire in &fused.committed {
        committed[usize::from(wire)] = true;
    }
    let mut filled = words.clone();
    for &wire in fused.gone.iter().chain(&fused.stranded) {
        filled[usize::from(wire)] = random.word();
    }
    evaluate::fill_back(system, &committed, &mut filled);
    (filled != words).then(|| format!("filling back gives other words\n{}", dump_lists(system)))
}

/// The old operands' values where the new lists have them: constraints that name a defined wire last; stranded, then committed definitions.
fn expected_values(system: &System, fused: &Fused, words: &[u64]) -> Vec<u64> {
    let definition_of = system.definition_of();
    let mut expected = Vec::new();
    for list in &system.others {
        let names_defined = |constraint: &&Constraint| {
            let mut terms = constraint.iter().flatten();
            terms.any(|term| definition_of[usize::from(term.wire)].is_some())
        };
        let (last, first): (Vec<_>, Vec<_>) = list.iter().partition(names_defined);
        let operands = first.into_iter().chain(last).flatten();
        expected.extend(operands.map(|operand| evaluate::value(operand, words)));
    }
    // A definition's right side has its wire's word, at these words.
    expected.extend(fused.system.linears.iter().map(|definition| words[usize::from(definition.dst)]));
    expected
}

/// Compares all kinds: `count` systems of each small kind, and a part of that of each large one.
pub fn compare_all(first: u64, count: u64, large_count: u64) -> Totals {
    let mut sum = Totals::default();
    for (kind, entry) in KINDS.iter().enumerate() {
        let count = if entry.large { large_count } else { count };
        let totals = compare_kind(kind, first, count);
        println!("{:<9} {totals}", entry.name);
        sum.add(&totals);
    }
    sum
}
