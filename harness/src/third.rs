//! The third side: the project's own library against the Rust, the rules, and the harness's readers, writer, evaluator and filling back.

use crate::{
    checks::check,
    compare::agree,
    evaluate,
    house::{self, FULL, Fault, ROOM, Refusal, SIZE},
    library::Library,
    ours::{Calls, Given, Image, Length, Not, Ours, Room, Source, outcome_of},
    outcome::{Fused, Outcome, dump, dump_lists},
    random::Random,
    system::{MAX_DEFINITIONS, MAX_OTHERS, MAX_TERMS, MAX_WIRES, MAX_WRITTEN, System},
};

/// The greatest number of terms of a system that is written or evaluated.
const MAX_ALL: usize = MAX_TERMS + MAX_WRITTEN;

/// Lent words and values of a seed's turn, and one turn in a few for what need not be tried on each system.
#[derive(Copy, Clone)]
struct Turn {
    seed: u64,
    length: Length,
}

impl Turn {
    fn is(self, one_in: u64, which: u64) -> bool {
        self.seed % one_in == which
    }

    /// How many cells are lent where so many are needed.
    fn lent(self, need: usize) -> usize {
        self.length.of(need, 2 * need)
    }
}

/// The library in one of its forms.
struct Side {
    ours: Ours,
    image: Image,
}

/// The library in all its forms.
pub struct Third(Vec<Side>);

impl Third {
    pub fn new(library: &Library) -> Self {
        Self(Ours::forms(library).into_iter().map(|ours| Side { ours, image: Image::default() }).collect())
    }

    /// The library that is linked; nothing without the feature `ours`.
    pub fn linked() -> Option<Self> {
        crate::library::linked().map(Self::new)
    }

    /// The calls since this was last asked.
    pub fn take_calls(&mut self) -> Calls {
        let mut sum = Calls::default();
        for side in &mut self.0 {
            sum.add(&std::mem::take(&mut side.ours.calls));
        }
        sum
    }

    /// Everything that is wrong about the library's answers to a system, in words. The other sides' answers are those at one slot and at
    /// two, each with the greatest room; the seed says how long stores are.
    pub fn faults_of(
        &mut self,
        system: &System,
        by_rules: &[Outcome; 2],
        by_rust: &[Outcome; 2],
        seed: u64,
    ) -> Vec<String> {
        self.0.iter_mut().flat_map(|side| side.faults_of(system, by_rules, by_rust, seed)).collect()
    }
}

impl Side {
    fn faults_of(
        &mut self,
        system: &System,
        by_rules: &[Outcome; 2],
        by_rust: &[Outcome; 2],
        seed: u64,
    ) -> Vec<String> {
        let turn = Turn { seed, length: Length::by_seed(seed) };
        let mut random = Random::new(seed);
        self.image.set(system);
        let mut faults = Vec::new();
        faults.extend(self.fault_of_file(system, turn));
        faults.extend(self.fault_of_reading(system, turn));
        let words: Vec<u64> = (0..system.wires).map(|_| random.word()).collect();
        faults.extend(self.fault_of_evaluating(system, &words, turn));
        faults.extend(self.fault_of_filling(system, &words, &mut random, turn));
        faults.extend(self.fault_of_slots(system, turn));
        for slots in 1..=2 {
            let [by_rules, by_rust] = [&by_rules[slots - 1], &by_rust[slots - 1]];
            faults.extend(self.fault_of_fusing(system, slots, by_rules, by_rust, turn));
        }
        let form = self.ours.form();
        let told = |fault: String| format!("ours, {form:?}: {fault}, {:?}\n{}", turn.length, dump_lists(system));
        faults.into_iter().map(told).collect()
    }

    /// The system is written as the harness writes it.
    fn fault_of_file(&mut self, system: &System, turn: Turn) -> Option<String> {
        let source = Source::Image(&self.image);
        fault_of_written(&mut self.ours, source, &written(system), turn).map(|fault| format!("writing: {fault}"))
    }

    /// Its file is read as the harness reads it; and with one store too short not at all.
    fn fault_of_reading(&mut self, system: &System, turn: Turn) -> Option<String> {
        let bytes = house::write(system).ok()?;
        let room = Room::of(system, turn.length);
        let expected = house::read(&bytes);
        let given = self.ours.read(&bytes, &room, turn.lent(7));
        let fault = fault_of_read(given, &expected);
        fault.or_else(|| {
            let short = Room::of(system, Length::Exact).one_short(turn.seed / 2);
            if expected.is_err() || short.holds(system) {
                return None;
            }
            let given = self.ours.read(&bytes, &short, 7);
            fault_of_read(given, &Err(Fault { refusal: ROOM, offset: bytes.len() }))
        })
    }

    fn fault_of_evaluating(&mut self, system: &System, words: &[u64], turn: Turn) -> Option<String> {
        let source = Source::Image(&self.image);
        let expected = if is_over(system) { Err(FULL) } else { Ok(evaluate::values(system, words)) };
        fault_of_values(&mut self.ours, source, words, &expected, turn).map(|fault| format!("evaluating: {fault}"))
    }

    /// Filling back with any flags at all, over any words.
    fn fault_of_filling(&mut self, system: &System, words: &[u64], random: &mut Random, turn: Turn) -> Option<String> {
        let mut flags: Vec<u8> = words.iter().map(|_| *random.pick(&[0, 0, 0, 1, 2, 255])).collect();
        let mut words = words.to_vec();
        // An assignment, or flags, of another length than the wires' number.
        match turn.seed % 16 {
            3 => words.push(0),
            5 => flags.push(0),
            7 => drop(words.pop()),
            9 => drop(flags.pop()),
            _ => {}
        }
        let expected = match check(system, 1) {
            Err(refusal) => Err(refusal),
            Ok(()) if words.len() != system.wires || flags.len() != system.wires => Err(SIZE),
            Ok(()) => {
                let committed: Vec<bool> = flags.iter().map(|&flag| flag != 0).collect();
                let mut filled = words.clone();
                evaluate::fill_back(system, &committed, &mut filled);
                Ok(filled)
            }
        };
        let given = self.ours.fill_back(&self.image, &flags, &words);
        fault_of_given(given, expected.as_ref()).map(|fault| format!("filling back: {fault}"))
    }

    /// Slot numbers that are refused, where nothing before them is.
    fn fault_of_slots(&mut self, system: &System, turn: Turn) -> Option<String> {
        let slots = match turn.seed % 16 {
            2 => 0,
            4 => 3,
            6 => u64::MAX - 1,
            8 => 1 << 32 | 1,
            _ => return None,
        };
        let expected = check(system, 3).expect_err("three slots are refused");
        let given = self.ours.fuse(&self.image, slots, MAX_WRITTEN, system.wires, turn.length);
        (given != Err(Not::Refused(expected))).then(|| format!("slots {slots}: {given:?}, not {expected}"))
    }

    fn fault_of_fusing(
        &mut self,
        system: &System,
        slots: usize,
        by_rules: &Outcome,
        by_rust: &Outcome,
        turn: Turn,
    ) -> Option<String> {
        let fault = match by_rules {
            Outcome::Fused(fused) => self.fault_of_fused(system, slots, fused, by_rust, turn),
            _ => self.fault_of_refused(system, slots, by_rules, turn),
        };
        fault.map(|fault| format!("slots {slots}: {fault}"))
    }

    fn fault_of_refused(&mut self, system: &System, slots: usize, expected: &Outcome, turn: Turn) -> Option<String> {
        // ROOM is about any store: the greatest, and one that is longer still.
        let room = match expected {
            Outcome::Refused(ROOM) if turn.is(2, 0) => MAX_WRITTEN + 5,
            Outcome::Refused(ROOM) => MAX_WRITTEN,
            _ => turn.lent(3),
        };
        let wires = system.wires.min(MAX_WIRES);
        let given = outcome_of(self.ours.fuse(&self.image, slots as u64, room, wires, turn.length));
        fault_of_outcome(&given, expected)
    }

    fn fault_of_fused(
        &mut self,
        system: &System,
        slots: usize,
        fused: &Fused,
        by_rust: &Outcome,
        turn: Turn,
    ) -> Option<String> {
        let written = turn.lent(fused.written).min(fused.written.max(MAX_WRITTEN));
        let flags = turn.lent(system.wires);
        let given = outcome_of(self.ours.fuse(&self.image, slots as u64, written, flags, turn.length));
        if !agree(&given, by_rust) {
            return Some(format!("{}Rust:\n{}", dump(&given), dump(by_rust)));
        }
        // The Rust's lists are not known where its expansion never ends; the rules' are.
        fault_of_same(&given, fused)
            .or_else(|| self.fault_after(system, fused, turn))
            .or_else(|| self.fault_of_short(system, slots, fused, turn))
    }

    /// The fused lists, where they stand, evaluated and written; and the words of uncommitted definitions filled back.
    fn fault_after(&mut self, system: &System, fused: &Fused, turn: Turn) -> Option<String> {
        let mut random = Random::new(turn.seed ^ 1 << 63);
        let words = evaluate::solved(system, || random.word());
        let flags = self.ours.flags().to_vec();
        let mut overwritten = words.clone();
        for &wire in fused.gone.iter().chain(&fused.stranded) {
            overwritten[usize::from(wire)] = random.word();
        }
        let filled = fault_of_given(self.ours.fill_back(&self.image, &flags, &overwritten), Ok(&words));
        if let Some(fault) = filled {
            return Some(format!("filling back after fusing: {fault}"));
        }
        let expected = if is_over(&fused.system) { Err(FULL) } else { Ok(evaluate::values(&fused.system, &words)) };
        if let Some(fault) = fault_of_values(&mut self.ours, Source::Fused, &words, &expected, turn) {
            return Some(format!("evaluating after fusing: {fault}"));
        }
        let file = written(&fused.system);
        fault_of_written(&mut self.ours, Source::Fused, &file, turn)
            .map(|fault| format!("writing after fusing: {fault}"))
    }

    /// One new term or one flag too few, by turns; and values that are not all told.
    fn fault_of_short(&mut self, system: &System, slots: usize, fused: &Fused, turn: Turn) -> Option<String> {
        if turn.is(64, 1) {
            return self.ours.fault_of_short_values(&self.image, slots as u64, fused.written);
        }
        let (room, flags) = if turn.is(4, 0) || fused.written == 0 {
            (fused.written, system.wires - 1)
        } else {
            (fused.written - 1, system.wires)
        };
        let short = outcome_of(self.ours.fuse(&self.image, slots as u64, room, flags, turn.length));
        fault_of_outcome(&short, &Outcome::Refused(ROOM)).map(|fault| format!("room {room}, flags {flags}: {fault}"))
    }
}

/// Whether writing and evaluating refuse a system with FULL.
fn is_over(system: &System) -> bool {
    let wires_fit = (1..=MAX_WIRES).contains(&system.wires);
    !wires_fit
        || system.linears.len() > MAX_DEFINITIONS
        || system.other_count() > MAX_OTHERS
        || system.term_count() > MAX_ALL
}

/// The file of a system in memory.
fn written(system: &System) -> Result<Vec<u8>, Refusal> {
    if is_over(system) { Err(FULL) } else { house::write(system) }
}

fn fault_of_same(given: &Outcome, fused: &Fused) -> Option<String> {
    match given {
        Outcome::Fused(given) if given == fused => None,
        _ => Some(format!("{}rules:\n{}", dump(given), dump(&Outcome::Fused(fused.clone())))),
    }
}

fn fault_of_outcome(given: &Outcome, expected: &Outcome) -> Option<String> {
    (given != expected).then(|| format!("{}not:\n{}", dump(given), dump(expected)))
}

pub fn fault_of_given<T: PartialEq + std::fmt::Debug>(
    given: Given<&[T]>,
    expected: Result<&Vec<T>, &Refusal>,
) -> Option<String> {
    let equal = match (&given, expected) {
        (Ok(given), Ok(expected)) => *given == expected.as_slice(),
        (Err(Not::Refused(given)), Err(expected)) => given == expected,
        _ => false,
    };
    (!equal).then(|| format!("{given:?}, not {expected:?}"))
}

pub fn fault_of_read(given: Given<System>, expected: &Result<System, Fault>) -> Option<String> {
    let equal = match (&given, expected) {
        (Ok(given), Ok(expected)) => given == expected,
        (Err(Not::Unread(given)), Err(expected)) => given == expected,
        _ => false,
    };
    (!equal).then(|| format!("reading: {given:?}, not {expected:?}"))
}

fn fault_of_written(
    ours: &mut Ours,
    source: Source<'_>,
    expected: &Result<Vec<u8>, Refusal>,
    turn: Turn,
) -> Option<String> {
    let need = expected.as_ref().map_or(0, Vec::len);
    let fault = fault_of_given(ours.write(source, turn.lent(need), turn.lent(1)), expected.as_ref());
    fault.or_else(|| {
        if need == 0 || !turn.is(4, 2) {
            return None;
        }
        fault_of_given(ours.write(source, need - 1, 1), Err(&ROOM))
    })
}

fn fault_of_values(
    ours: &mut Ours,
    source: Source<'_>,
    words: &[u64],
    expected: &Result<Vec<u64>, Refusal>,
    turn: Turn,
) -> Option<String> {
    let need = expected.as_ref().map_or(0, Vec::len);
    let fault = fault_of_given(ours.evaluate(source, words, turn.lent(need), turn.lent(1)), expected.as_ref());
    fault.or_else(|| match (expected, turn.seed % 8) {
        (Ok(_), 1) if need > 0 => fault_of_given(ours.evaluate(source, words, need - 1, 1), Err(&ROOM)),
        // A wrong size comes before a short store.
        (Ok(_), 3) => fault_of_given(ours.evaluate(source, &words[1..], 0, 1), Err(&SIZE)),
        (Ok(_), 5) => fault_of_given(ours.evaluate(source, &[words, &[0]].concat(), 0, 1), Err(&SIZE)),
        _ => None,
    })
}
