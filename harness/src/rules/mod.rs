//! 01's rules, written from its sentences and never calling the Rust.

pub mod decide;
pub mod expand;
pub mod shift;

use crate::{
    checks::check,
    house::ROOM,
    outcome::{Fused, Outcome},
    system::{MAX_WRITTEN, System},
};

/// Fuses with a result store of `room` terms.
pub fn fuse(system: &System, slots: usize, room: usize) -> Outcome {
    if let Err(refusal) = check(system, slots) {
        return Outcome::Refused(refusal);
    }
    let commits = decide::decide(system, slots);
    match expand::patched(system, &commits, slots, room.min(MAX_WRITTEN)) {
        Some(patched) => Outcome::Fused(fused(system, &commits, patched)),
        None => Outcome::Refused(ROOM),
    }
}

fn fused(system: &System, commits: &[bool], patched: expand::Patched) -> Fused {
    let wires_of = |chosen: &dyn Fn(usize) -> bool| {
        let positions = (0..system.linears.len()).filter(|&at| chosen(at));
        let mut wires: Vec<u16> = positions.map(|at| system.linears[at].dst).collect();
        wires.sort_unstable();
        wires
    };
    let met = &patched.met;
    Fused {
        committed: wires_of(&|at| commits[at]),
        gone: wires_of(&|at| met[at]),
        stranded: wires_of(&|at| !commits[at] && !met[at]),
        written: patched.written,
        system: patched.system,
    }
}
