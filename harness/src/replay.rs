//! Reads the files that `vectors` wrote, and holds the readers and the rules against them, as a replay program does with its own functions.

use std::{fs, io, path::Path};

use crate::{
    house::{self, Fault},
    outcome::{Fused, Outcome},
    rules,
    system::MAX_WRITTEN,
};

/// Vectors read, and those that are answered otherwise.
#[derive(Debug, Default, PartialEq, Eq)]
pub struct Replayed {
    pub vectors: usize,
    pub mismatches: usize,
}

/// What is left of a file.
struct Rest<'a>(&'a [u8]);

impl<'a> Rest<'a> {
    fn take(&mut self, length: usize) -> &'a [u8] {
        let (taken, rest) = self.0.split_at(length);
        self.0 = rest;
        taken
    }

    fn number(&mut self) -> usize {
        let bytes = self.take(4).try_into().expect("four were taken");
        u32::from_le_bytes(bytes) as usize
    }

    fn numbers<const N: usize>(&mut self) -> [usize; N] {
        std::array::from_fn(|_| self.number())
    }

    fn block(&mut self) -> &'a [u8] {
        let length = self.number();
        self.take(length)
    }
}

/// Replays house.bin, decision.bin and fuse.bin of a folder.
pub fn replay(folder: &Path) -> io::Result<Replayed> {
    let mut replayed = Replayed::default();
    for (name, holds) in [
        ("house.bin", house_holds as fn(&mut Rest) -> bool),
        ("decision.bin", decision_holds),
        ("fuse.bin", fuse_holds),
    ] {
        let bytes = fs::read(folder.join(name))?;
        let mut rest = Rest(&bytes);
        for at in 0..rest.number() {
            replayed.vectors += 1;
            if !holds(&mut rest) {
                replayed.mismatches += 1;
                println!("mismatch: {name} {at}");
            }
        }
        assert!(rest.0.is_empty(), "{name} goes on behind its last vector");
    }
    Ok(replayed)
}

/// The house files of all vectors of a folder.
pub fn files(folder: &Path) -> io::Result<Vec<Vec<u8>>> {
    let mut files = Vec::new();
    // What stands behind the house file: numbers, and in the last two a block before the last of them.
    for (name, before, after) in [("house.bin", 9, None), ("decision.bin", 2, Some(0)), ("fuse.bin", 3, Some(5))] {
        let bytes = fs::read(folder.join(name))?;
        let mut rest = Rest(&bytes);
        for _ in 0..rest.number() {
            files.push(rest.block().to_vec());
            rest.take(4 * before);
            if let Some(after) = after {
                rest.block();
                rest.take(4 * after);
            }
        }
    }
    Ok(files)
}

fn house_holds(rest: &mut Rest) -> bool {
    let answer = match house::read(rest.block()) {
        Ok(system) => {
            let [ands, imuls, bmuls, zeros] = system.others.each_ref().map(Vec::len);
            [0, 0, system.wires, ands, imuls, bmuls, zeros, system.linears.len(), system.term_count()]
        }
        Err(Fault { refusal, offset }) => [refusal.into(), offset, 0, 0, 0, 0, 0, 0, 0],
    };
    rest.numbers() == answer
}

/// The rules' answer to a file: a refusal's number, 0 for none, and what was fused.
fn fused(file: &[u8], slots: usize, room: usize) -> (usize, Option<Fused>) {
    let system = house::read(file).expect("these files are accepted");
    match rules::fuse(&system, slots, room) {
        Outcome::Fused(fused) => (0, Some(fused)),
        Outcome::Refused(refusal) => (refusal.into(), None),
        other => unreachable!("the rules never answer {other:?}"),
    }
}

fn decision_holds(rest: &mut Rest) -> bool {
    let file = rest.block();
    let [slots, expected] = rest.numbers();
    let flags = rest.block();
    let (refusal, fused) = fused(file, slots, MAX_WRITTEN);
    let answer: Vec<u8> = fused.map_or(Vec::new(), |fused| {
        let commits = |wire: usize| fused.committed.contains(&(wire as u16));
        (0..fused.system.wires).map(|wire| commits(wire).into()).collect()
    });
    refusal == expected && answer == flags
}

fn fuse_holds(rest: &mut Rest) -> bool {
    let file = rest.block();
    let [slots, room, expected] = rest.numbers();
    let lists = rest.block();
    let counts: [usize; 5] = rest.numbers();
    let (refusal, fused) = fused(file, slots, room);
    let (answer, answer_counts) = fused.map_or((Vec::new(), [0; 5]), |fused| {
        let [gone, stranded, committed] = [&fused.gone, &fused.stranded, &fused.committed].map(Vec::len);
        let lists = house::write(&fused.system).expect("short files have no wide field");
        (lists, [gone, stranded, committed, fused.written, fused.kept()])
    });
    refusal == expected && answer == lists && answer_counts == counts
}
