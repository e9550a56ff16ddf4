//! What fusing a file comes to, and its canonical text.

use std::fmt::Write;

use crate::{
    house::{Fault, Refusal},
    system::{Definition, NAMES, Operand, System, Term},
};

/// Fuses a system with so many slots and a result store of so many terms: the shape of each side that is compared.
pub type Fuse = fn(&System, usize, usize) -> Outcome;

#[derive(Clone, Debug, PartialEq, Eq)]
pub enum Outcome {
    /// The reader's fault.
    Unread(Fault),
    /// Fusing's refusal.
    Refused(Refusal),
    Fused(Fused),
    /// The Rust's expansion would look at more terms than the harness lets it. What is known all the same: the wires that it commits, and
    /// how many terms it would write.
    Endless {
        committed: Vec<u16>,
        written: usize,
    },
    /// The Rust panicked, with this message.
    Panicked(String),
}

#[derive(Clone, Debug, PartialEq, Eq)]
pub struct Fused {
    /// The patched lists.
    pub system: System,
    /// Wires whose definition is committed, rising.
    pub committed: Vec<u16>,
    /// Wires whose definition is gone, rising.
    pub gone: Vec<u16>,
    /// Wires whose definition is stranded, rising.
    pub stranded: Vec<u16>,
    /// Terms written to the result store.
    pub written: usize,
}

impl Fused {
    /// Wires that need a stored value: all but those of uncommitted definitions.
    pub fn kept(&self) -> usize {
        self.system.wires - self.gone.len() - self.stranded.len()
    }
}

/// The line that `fusereport` prints.
pub fn report(outcome: &Outcome) -> String {
    match outcome {
        Outcome::Unread(fault) => format!("refused {}", fault.refusal),
        Outcome::Refused(refusal) => format!("refused {refusal}"),
        Outcome::Fused(fused) => format!("ok {}", counts(fused).map(|count| count.to_string()).join(" ")),
        Outcome::Endless { .. } => "endless".into(),
        Outcome::Panicked(message) => format!("panicked {message}"),
    }
}

fn counts(fused: &Fused) -> [usize; 9] {
    let [ands, imuls, bmuls, zeros] = &fused.system.others;
    [
        ands.len(),
        imuls.len(),
        bmuls.len(),
        zeros.len(),
        fused.system.linears.len(),
        fused.committed.len(),
        fused.stranded.len(),
        fused.written,
        fused.kept(),
    ]
}

/// The canonical text, which README.md describes.
pub fn dump(outcome: &Outcome) -> String {
    match outcome {
        Outcome::Unread(fault) => format!("refused {} at {}\n", fault.refusal, fault.offset),
        Outcome::Fused(fused) => dump_fused(fused),
        other => format!("{}\n", report(other)),
    }
}

fn dump_fused(fused: &Fused) -> String {
    let mut text = String::from("ok\n");
    for (name, wires) in [("committed", &fused.committed), ("gone", &fused.gone), ("stranded", &fused.stranded)] {
        let wires: String = wires.iter().map(|wire| format!(" {wire}")).collect();
        writeln!(text, "{name}{wires}").expect("a string takes all");
    }
    writeln!(text, "written {}\nkept {}", fused.written, fused.kept()).expect("a string takes all");
    text + &dump_lists(&fused.system)
}

/// The five lists in tag order, one constraint a line.
pub fn dump_lists(system: &System) -> String {
    let mut text = String::new();
    for (name, list) in NAMES.iter().zip(&system.others) {
        for constraint in list {
            let operands: Vec<String> = constraint.iter().map(|operand| dump_operand(operand)).collect();
            writeln!(text, "{name} {}", operands.join(" / ")).expect("a string takes all");
        }
    }
    for Definition { dst, rhs } in &system.linears {
        writeln!(text, "linear {dst} = {}", dump_operand(rhs)).expect("a string takes all");
    }
    text
}

fn dump_operand(operand: &Operand) -> String {
    if operand.is_empty() {
        return "-".into();
    }
    let terms: Vec<String> = operand.iter().map(dump_term).collect();
    terms.join(" ")
}

fn dump_term(term: &Term) -> String {
    format!("{}:{}:{}", term.wire, term.inner, term.outer)
}
