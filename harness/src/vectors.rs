//! The files that replay programs read: house files, each with the answer that is expected. README.md describes them byte by byte.
//!
//! Systems are drawn by kind and rising seed, and one is taken if it shows something that none before it did.

use std::{collections::BTreeSet, fmt::Write, fs, io, path::Path};

use crate::{
    circuits::CIRCUITS,
    damage, examples,
    generate::{self, KINDS},
    house::{self, Fault},
    oracle,
    outcome::{Fused, Outcome},
    random::Random,
    rules::{
        self,
        decide::{Grounds, grounds},
        shift::{Pushed, is_identity, push_inner, variant},
    },
    system::{MAX_DEFINITIONS, MAX_WRITTEN, System, Term},
};

/// One replay file: its bytes, and a line of text for each vector.
struct Volume {
    name: &'static str,
    bytes: Vec<u8>,
    text: String,
    count: u32,
}

impl Volume {
    fn new(name: &'static str) -> Self {
        Self { name, bytes: Vec::new(), text: String::new(), count: 0 }
    }

    /// A vector begins with its house file.
    fn begin(&mut self, file: &[u8], what: &str) {
        writeln!(self.text, "{} {what}", self.count).expect("a string takes all");
        self.count += 1;
        self.block(file);
    }

    fn block(&mut self, bytes: &[u8]) {
        self.numbers(&[bytes.len()]);
        self.bytes.extend(bytes);
    }

    fn numbers(&mut self, numbers: &[usize]) {
        for &number in numbers {
            let number = u32::try_from(number).expect("all counts are small");
            self.bytes.extend(number.to_le_bytes());
        }
    }

    fn save(&self, folder: &Path) -> io::Result<()> {
        let count = self.count.to_le_bytes();
        fs::write(folder.join(format!("{}.bin", self.name)), [&count[..], &self.bytes].concat())?;
        fs::write(folder.join(format!("{}.txt", self.name)), &self.text)
    }
}

/// Writes house.bin, decision.bin and fuse.bin, each with its text, and says what was written.
pub fn write(folder: &Path) -> io::Result<String> {
    fs::create_dir_all(folder)?;
    let systems = chosen();
    let volumes = [house_volume(), decision_volume(&systems), fuse_volume(&systems)];
    let mut said = String::new();
    for volume in volumes {
        volume.save(folder)?;
        let size = volume.bytes.len() + 4;
        writeln!(said, "{}.bin: {} vectors, {size} bytes", volume.name, volume.count).expect("a string takes all");
    }
    Ok(said)
}

/// Good files that are written as they are, and mutations of the file that is damaged.
const GOOD_FILES: u64 = 24;
const MUTATIONS: usize = 150;

fn house_volume() -> Volume {
    let mut volume = Volume::new("house");
    for seed in 0..GOOD_FILES {
        house_vector(&mut volume, &damage::good_file(seed), &format!("good file, seed {seed}"));
    }
    let least = damage::least_file();
    house_vector(&mut volume, &least, "least file");
    let mut seen = BTreeSet::new();
    for damaged in damage::damaged(&least).into_iter().filter(|damaged| seen.insert(damaged.bytes.clone())) {
        house_vector(&mut volume, &damaged.bytes, &format!("least file: {}", damaged.what));
    }
    let mut random = Random::new(0);
    for at in 0..MUTATIONS {
        house_vector(
            &mut volume,
            &damage::mutated(&least, &mut random),
            &format!("least file: mutation {at} by seed 0"),
        );
    }
    for damaged in damage::over_limits().into_iter().filter(|damaged| damaged.is_plain && damaged.bytes.len() < 10_000)
    {
        house_vector(&mut volume, &damaged.bytes, &damaged.what);
    }
    volume
}

fn house_vector(volume: &mut Volume, file: &[u8], what: &str) {
    volume.begin(file, what);
    match house::read(file) {
        Ok(system) => {
            let [ands, imuls, bmuls, zeros] = system.others.each_ref().map(Vec::len);
            let lists = [ands, imuls, bmuls, zeros, system.linears.len()];
            volume.numbers(&[0, 0, system.wires]);
            volume.numbers(&lists);
            volume.numbers(&[system.term_count()]);
        }
        Err(Fault { refusal, offset }) => volume.numbers(&[refusal.into(), offset, 0, 0, 0, 0, 0, 0, 0]),
    }
}

/// A system with the words that say how it was made, and the slots to fuse it with.
struct Chosen {
    what: String,
    system: System,
    slots: usize,
    /// Whether the decision shows something new; if not, only expansion does.
    decides: bool,
}

/// Seeds tried of each kind.
const SEEDS: u64 = 3000;
/// No file is longer, but for a circuit's.
const LONGEST_FILE: usize = 700;
/// Nor is more written.
const MOST_WRITTEN: usize = 120;

fn chosen() -> Vec<Chosen> {
    let mut chosen: Vec<Chosen> = examples().collect();
    let mut shown = BTreeSet::new();
    for (kind, entry) in KINDS.iter().enumerate() {
        let seeds = if entry.large { SEEDS / 30 } else { SEEDS };
        for (seed, slots) in (0..seeds).flat_map(|seed| [(seed, 1), (seed, 2)]) {
            let system = generate::system(kind, seed);
            let new = shows(&system, slots, kind).into_iter().filter(|show| shown.insert(show.clone()));
            let new: Vec<String> = new.collect();
            if !new.is_empty() {
                let what = format!("{} {seed} slots {slots}", entry.name);
                let decides = new.iter().any(|show| show.starts_with("kind"));
                chosen.push(Chosen { what, system, slots, decides });
            }
        }
    }
    chosen.extend(slots_refused());
    chosen.extend(circuits());
    chosen
}

fn examples() -> impl Iterator<Item = Chosen> {
    let examples = examples::all().into_iter();
    let at_slots = examples.flat_map(|(name, system)| {
        [1, 2].map(|slots| Chosen {
            what: format!("example {name} slots {slots}"),
            system: system.clone(),
            slots,
            decides: true,
        })
    });
    // The longest file is worth its bytes once.
    at_slots.filter(|chosen| chosen.slots == 2 || chosen.system.linears.len() < MAX_DEFINITIONS)
}

/// The Rust's answer; the rules' where the Rust never gives one.
fn answer(system: &System, slots: usize, room: usize) -> Outcome {
    match oracle::fuse(system, slots, room) {
        Outcome::Endless { .. } => rules::fuse(system, slots, room),
        answer => answer,
    }
}

/// Slots that are neither 1 nor 2.
fn slots_refused() -> impl Iterator<Item = Chosen> {
    [0, 3].into_iter().map(|slots| Chosen {
        what: format!("dense 0 slots {slots}"),
        system: generate::system(0, 0),
        slots,
        decides: true,
    })
}

/// The least of each real circuit.
fn circuits() -> impl Iterator<Item = Chosen> {
    CIRCUITS.iter().map(|sized| {
        let size = if sized.name == "median" { 4 } else { 1 };
        Chosen {
            what: format!("circuit {} {size} 1 slots 2", sized.name),
            system: (sized.build)(size, &mut Random::new(1)).system,
            slots: 2,
            decides: false,
        }
    })
}

/// What a system shows, each thing in words; nothing if it is too large for a replay file.
fn shows(system: &System, slots: usize, kind: usize) -> BTreeSet<String> {
    let mut shown = BTreeSet::new();
    let short = house::write(system).is_ok_and(|file| file.len() <= LONGEST_FILE);
    if !short || house::is_full(system) {
        return shown;
    }
    match oracle::fuse(system, slots, MAX_WRITTEN) {
        Outcome::Fused(fused) if fused.written <= MOST_WRITTEN => show_fused(system, &fused, slots, kind, &mut shown),
        Outcome::Refused(refusal) => drop(shown.insert(format!("kind {kind} refused {refusal} slots {slots}"))),
        _ => {}
    }
    shown
}

/// Grounds of commits, lists, what is gone and stranded, pushes by case.
fn show_fused(system: &System, fused: &Fused, slots: usize, kind: usize, shown: &mut BTreeSet<String>) {
    let grounds = grounds(system, slots);
    for (ground, definition) in grounds.iter().zip(&system.linears) {
        shown.insert(format!("kind {kind} {ground:?} of {} terms", definition.rhs.len().min(3)));
    }
    for (at, list) in system.others.iter().enumerate() {
        shown.insert(format!("list {at} of {} slots {slots}", list.len().min(3)));
    }
    shown.insert(format!("kind {kind} gone {} stranded {}", fused.gone.len().min(2), fused.stranded.len().min(2)));
    let mut walk = PushWalk { system, definition_of: system.definition_of(), grounds, slots, shown };
    for term in system.operands().flatten() {
        walk.term(*term);
    }
}

/// Follows expansion, and notes each push by variants and case.
struct PushWalk<'a> {
    system: &'a System,
    definition_of: Vec<Option<usize>>,
    grounds: Vec<Grounds>,
    slots: usize,
    shown: &'a mut BTreeSet<String>,
}

impl PushWalk<'_> {
    fn term(&mut self, term: Term) {
        let position = match self.definition_of[usize::from(term.wire)] {
            Some(position) if !self.grounds[position].any() => position,
            _ => return,
        };
        for inner in &self.system.linears[position].rhs {
            let pushed = push_inner([term.inner, term.outer], inner.inner, self.slots);
            self.shown.insert(push_shown(term, inner.inner, pushed));
            if let Pushed::Seq([first, second]) = pushed {
                self.term(Term::new(inner.wire, first, second));
            }
        }
    }
}

fn push_shown(term: Term, by: u16, pushed: Pushed) -> String {
    let spelt = |shift: u16| if is_identity(shift) { 8 } else { variant(shift) };
    let case = match pushed {
        Pushed::Seq([_, outer]) if is_identity(outer) => "one",
        Pushed::Seq(_) => "two",
        Pushed::Zero => "zero",
        Pushed::OverBudget => "over",
    };
    format!("push {} {} {} {case}", spelt(by), spelt(term.inner), spelt(term.outer) == 8)
}

fn decision_volume(systems: &[Chosen]) -> Volume {
    let mut volume = Volume::new("decision");
    for Chosen { what, system, slots, .. } in systems.iter().filter(|chosen| chosen.decides) {
        let file = house::write(system).expect("short files have no wide field");
        match answer(system, *slots, MAX_WRITTEN) {
            Outcome::Fused(fused) => {
                volume.begin(&file, what);
                volume.numbers(&[*slots, 0]);
                volume.block(&flags(&fused));
            }
            Outcome::Refused(refusal) if refusal != house::ROOM => {
                volume.begin(&file, what);
                volume.numbers(&[*slots, refusal.into()]);
                volume.block(&[]);
            }
            _ => {}
        }
    }
    volume
}

/// A byte for each wire: 1 for committed.
fn flags(fused: &Fused) -> Vec<u8> {
    let mut flags = vec![0; fused.system.wires];
    for &wire in &fused.committed {
        flags[usize::from(wire)] = 1;
    }
    flags
}

fn fuse_volume(systems: &[Chosen]) -> Volume {
    let mut volume = Volume::new("fuse");
    for (at, Chosen { what, system, slots, .. }) in systems.iter().enumerate() {
        fuse_vector(&mut volume, what, system, *slots, MAX_WRITTEN);
        // Now and then, rooms that are just filled, and just not enough.
        if let (0, Outcome::Fused(fused)) = (at % 16, answer(system, *slots, MAX_WRITTEN)) {
            for room in [Some(fused.written), fused.written.checked_sub(1)].into_iter().flatten() {
                fuse_vector(&mut volume, &format!("{what} room {room}"), system, *slots, room);
            }
        }
    }
    volume
}

fn fuse_vector(volume: &mut Volume, what: &str, system: &System, slots: usize, room: usize) {
    let file = house::write(system).expect("short files have no wide field");
    match answer(system, slots, room) {
        Outcome::Fused(fused) => {
            volume.begin(&file, what);
            volume.numbers(&[slots, room, 0]);
            volume.block(&house::write(&fused.system).expect("short files have no wide field"));
            let counts = [fused.gone.len(), fused.stranded.len(), fused.committed.len(), fused.written, fused.kept()];
            volume.numbers(&counts);
        }
        Outcome::Refused(refusal) => {
            volume.begin(&file, what);
            volume.numbers(&[slots, room, refusal.into()]);
            volume.block(&[]);
            volume.numbers(&[0; 5]);
        }
        _ => {}
    }
}
