//! The harness's commands: README.md says what each is for.

use std::{
    io::{Read, Write},
    path::Path,
    process::ExitCode,
};

use harness::{
    bench, circuits, compare, damage, generate,
    house::{self, FULL},
    library, memory, oracle,
    outcome::{Fuse, Outcome, dump, report},
    random::Random,
    replay, rules, shifts, slow, stores,
    system::{MAX_WRITTEN, REPORT_BYTES, REPORT_ROOM, System},
    vectors,
};

const USAGE: &str = "\
usage: harness COMMAND, see README.md
  fuse SLOTS [ROOM] < FILE      the Rust's answer, as canonical text
  rules SLOTS [ROOM] < FILE     the rules' answer
  report < FILE                 the line that fusereport prints, by the Rust
  shifts                        counts and digests of compose, push_inner and apply
  compose | push INNER | apply HEXWORD
  make KIND SEED > FILE         a generated system as a house file
  compare KIND FIRST COUNT | compare all FIRST COUNT LARGECOUNT
  compare-memory FIRST COUNT    systems in memory with any numbers in them, by the library (feature `ours`)
  compare-shifts
  circuit NAME SIZE SEED > FILE a real circuit as a house file
  bench REPEATS                 the real circuits: sizes, checks, microseconds of the Rust, and of the library (feature `ours`)
  bench-one CIRCUIT SLOTS rust|ours PASSES   passes of one side, for counting instructions
  slow REPEATS                  systems made to be slow: processor seconds of the library (feature `ours`)
  compare-slow                  those systems, as `compare` compares
  vectors FOLDER                the files that replay programs read
  seeds VECTORS FOLDER          house files to begin fuzzing with
  replay FOLDER                 those files against the readers and the rules
  damage FIRST COUNT            damaged files through two readers
  memory FOLDER                 stdin and stdout of replay_lower
";

const NOT_LINKED: &str = "this command needs the feature `ours`";

fn main() -> ExitCode {
    oracle::silence_rust();
    let arguments: Vec<String> = std::env::args().skip(1).collect();
    let arguments: Vec<&str> = arguments.iter().map(String::as_str).collect();
    match run(&arguments) {
        Some(code) => code,
        None => {
            eprint!("{USAGE}");
            ExitCode::from(2)
        }
    }
}

/// Nothing if the command line is none of the commands'.
fn run(arguments: &[&str]) -> Option<ExitCode> {
    match arguments {
        ["fuse", slots, room @ ..] => print!("{}", dump(&fuse_input(oracle::fuse, slots, room)?)),
        ["rules", slots, room @ ..] => print!("{}", dump(&fuse_input(rules::fuse, slots, room)?)),
        ["report"] => println!("{}", report(&report_input())),
        ["shifts"] => print!("{}", shifts::digest_lines()),
        ["compose"] => shifts::print_compose(),
        ["push", inner] => shifts::print_push(inner.parse().ok().filter(|&inner| house::is_shift(inner))?),
        ["apply", word] => shifts::print_apply(u64::from_str_radix(word, 16).ok()?),
        ["make", kind, seed] => make(kind, seed)?,
        ["compare", "all", first, count, large] => {
            let totals = compare::compare_all(first.parse().ok()?, count.parse().ok()?, large.parse().ok()?);
            return Some(told(&totals));
        }
        ["compare", kind, first, count] => {
            let kind = generate::kind_by_name(kind)?;
            return Some(told(&compare::compare_kind(kind, first.parse().ok()?, count.parse().ok()?)));
        }
        ["damage", first, count] => return Some(damage_files(first.parse().ok()?, count.parse().ok()?)),
        ["circuit", name, size, seed] => circuit(name, size.parse().ok()?, seed.parse().ok()?)?,
        ["bench", repeats] => return Some(code(bench::bench(repeats.parse().ok()?))),
        ["bench-one", circuit, slots, side, passes] => {
            bench::bench_one(circuit, slots.parse().ok()?, side, passes.parse().ok()?)?
        }
        ["vectors", folder] => print!("{}", vectors::write(folder.as_ref()).expect("the folder can be written")),
        ["seeds", vectors, folder] => seeds(vectors.as_ref(), folder.as_ref()).expect("the folders are there"),
        ["replay", folder] => return Some(replay_files(folder.as_ref())),
        ["memory", folder] => print!("{}", memory::write(folder.as_ref()).expect("the folder can be written")),
        ["compare-memory", first, count] => return Some(compare_memory(first.parse().ok()?, count.parse().ok()?)),
        ["compare-slow"] => return Some(told(&slow::compare())),
        ["slow", repeats] => return Some(slow(repeats.parse().ok()?)),
        ["compare-shifts"] => return Some(compare_shifts()),
        _ => return None,
    }
    Some(ExitCode::SUCCESS)
}

fn input() -> Vec<u8> {
    let mut bytes = Vec::new();
    std::io::stdin().read_to_end(&mut bytes).expect("standard input can be read");
    bytes
}

fn fuse_input(fuse: Fuse, slots: &str, room: &[&str]) -> Option<Outcome> {
    let slots = slots.parse().ok()?;
    let room = match room {
        [] => MAX_WRITTEN,
        [room] => room.parse().ok()?,
        _ => return None,
    };
    Some(match house::read(&input()) {
        Ok(system) => fuse(&system, slots, room),
        Err(fault) => Outcome::Unread(fault),
    })
}

fn report_input() -> Outcome {
    let bytes = input();
    if bytes.len() > REPORT_BYTES {
        return Outcome::Refused(FULL);
    }
    match house::read(&bytes) {
        Ok(system) => oracle::fuse(&system, 2, REPORT_ROOM),
        Err(fault) => Outcome::Unread(fault),
    }
}

fn make(kind: &str, seed: &str) -> Option<()> {
    write_system(&generate::system(generate::kind_by_name(kind)?, seed.parse().ok()?))
}

fn circuit(name: &str, size: usize, seed: u64) -> Option<()> {
    let sized = circuits::CIRCUITS.iter().find(|sized| sized.name == name)?;
    write_system(&(sized.build)(size, &mut Random::new(seed)).system)
}

fn write_system(system: &System) -> Option<()> {
    let bytes = house::write(system).ok()?;
    std::io::stdout().write_all(&bytes).expect("standard output can be written");
    Some(())
}

fn code(good: bool) -> ExitCode {
    if good { ExitCode::SUCCESS } else { ExitCode::FAILURE }
}

fn told(totals: &compare::Totals) -> ExitCode {
    println!("all       {totals}");
    code(totals.differences == 0)
}

fn compare_shifts() -> ExitCode {
    let mut differences = 0;
    let mut tell = |name: &str, compare: &mut dyn FnMut() -> shifts::Tried| {
        let start = std::time::Instant::now();
        let tried = compare();
        let seconds = start.elapsed().as_secs_f64();
        println!("{name} calls {} differences {} seconds {seconds:.1}", tried.calls, tried.differences);
        differences += tried.differences;
    };
    tell("compose", &mut shifts::compare_compose);
    tell("push_inner", &mut shifts::compare_push);
    tell("apply", &mut shifts::compare_apply);
    if let Some(mut ours) = shifts::OurShifts::linked() {
        tell("our compose", &mut || shifts::compare_our_compose(&mut ours));
        tell("our push_inner", &mut || shifts::compare_our_push(&mut ours, &shifts::valid_shifts()));
    }
    code(differences == 0)
}

fn compare_memory(first: u64, count: u64) -> ExitCode {
    let Some(library) = library::linked() else {
        eprintln!("{NOT_LINKED}");
        return ExitCode::from(2);
    };
    let totals = stores::compare(library, first, count);
    print!("{totals}");
    code(totals.differences == 0)
}

fn slow(repeats: usize) -> ExitCode {
    let Some(library) = library::linked() else {
        eprintln!("{NOT_LINKED}");
        return ExitCode::from(2);
    };
    code(slow::run(library, repeats))
}

/// House files to begin fuzzing with: those of the vectors, damaged ones, and some generated systems of each kind.
fn seeds(vectors: &Path, folder: &Path) -> std::io::Result<()> {
    let mut files = replay::files(vectors)?;
    files.push(damage::least_file());
    files.extend(damage::damaged(&damage::least_file()).into_iter().step_by(7).map(|damaged| damaged.bytes));
    for (kind, entry) in generate::KINDS.iter().enumerate() {
        let seeds = if entry.large { 8 } else { 40 };
        let systems = (0..seeds).map(|seed| generate::system(kind, seed));
        files.extend(systems.filter_map(|system| house::write(&system).ok()));
    }
    for (at, file) in files.iter().enumerate() {
        std::fs::write(folder.join(format!("{at:05}")), file)?;
    }
    println!("files {}", files.len());
    Ok(())
}

fn replay_files(folder: &Path) -> ExitCode {
    let replayed = replay::replay(folder).expect("the folder has the three files");
    println!("vectors {} mismatches {}", replayed.vectors, replayed.mismatches);
    code(replayed.mismatches == 0)
}

fn damage_files(first: u64, count: u64) -> ExitCode {
    let start = std::time::Instant::now();
    let read = damage::run(first, count);
    let seconds = start.elapsed().as_secs_f64();
    println!("{read:?} seconds {seconds:.1}");
    code(read.differences == 0)
}
