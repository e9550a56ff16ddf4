//! 01's "The patched lists": expansion and the five lists after it.

use std::collections::HashSet;

use super::shift::{Pushed, push_inner};
use crate::system::{Constraint, Definition, KINDS, Operand, System, Term};

pub struct Patched {
    pub system: System,
    /// For each definition, by position, whether expansion met it: it is gone.
    pub met: Vec<bool>,
    pub written: usize,
}

/// The patched lists, or nothing if they take more than `room` terms.
pub fn patched(system: &System, commits: &[bool], slots: usize, room: usize) -> Option<Patched> {
    let mut expansion = Expansion::new(system, commits, slots, room);
    let mut after = System::new(system.wires);
    for kind in 0..KINDS {
        after.others[kind] = expansion.constraints(&system.others[kind])?;
    }
    let rebuilt = expansion.committed()?;
    let met = expansion.met;
    let stranded = (0..commits.len()).filter(|&at| !commits[at] && !met[at]);
    after.linears = stranded.map(|at| system.linears[at].clone()).collect();
    after.linears.extend(rebuilt);
    Some(Patched { system: after, met, written: expansion.written })
}

struct Expansion<'a> {
    system: &'a System,
    commits: &'a [bool],
    slots: usize,
    room: usize,
    definition_of: Vec<Option<usize>>,
    met: Vec<bool>,
    written: usize,
    /// Definitions that wrote nothing under these shifts: they would again, so they are passed over. Without this, expansion of accepted
    /// systems can take longer than anyone waits.
    barren: HashSet<(usize, [u16; 2])>,
}

/// The result store is full.
struct Full;

impl<'a> Expansion<'a> {
    fn new(system: &'a System, commits: &'a [bool], slots: usize, room: usize) -> Self {
        Self {
            system,
            commits,
            slots,
            room,
            definition_of: system.definition_of(),
            met: vec![false; commits.len()],
            written: 0,
            barren: HashSet::new(),
        }
    }

    /// "Each list: what was neither rebuilt nor gone, in old order, then what was rebuilt."
    fn constraints(&mut self, list: &[Constraint]) -> Option<Vec<Constraint>> {
        let (to_rebuild, mut after): (Vec<_>, Vec<_>) =
            list.iter().cloned().partition(|constraint| self.names_defined(constraint));
        for constraint in to_rebuild {
            let operands = constraint.iter().map(|operand| self.operand(operand).ok());
            after.push(operands.collect::<Option<_>>()?);
        }
        Some(after)
    }

    fn names_defined(&self, constraint: &Constraint) -> bool {
        let mut terms = constraint.iter().flatten();
        terms.any(|term| self.definition_of[usize::from(term.wire)].is_some())
    }

    /// The committed definitions rebuilt, by rising wire number.
    fn committed(&mut self) -> Option<Vec<Definition>> {
        let mut positions: Vec<usize> = (0..self.commits.len()).filter(|&at| self.commits[at]).collect();
        positions.sort_unstable_by_key(|&at| self.system.linears[at].dst);
        let rebuilt = positions.into_iter().map(|at| {
            let Definition { dst, rhs } = &self.system.linears[at];
            let rhs = self.operand(rhs).ok()?;
            Some(Definition { dst: *dst, rhs })
        });
        rebuilt.collect()
    }

    fn operand(&mut self, operand: &Operand) -> Result<Operand, Full> {
        let mut out = Vec::new();
        for term in operand {
            self.term(*term, &mut out)?;
        }
        Ok(out)
    }

    /// Depth first, left to right, until a committed or undefined wire stands.
    fn term(&mut self, term: Term, out: &mut Operand) -> Result<(), Full> {
        let position = match self.definition_of[usize::from(term.wire)] {
            Some(position) if !self.commits[position] => position,
            _ => return self.write(term, out),
        };
        let sequence = [term.inner, term.outer];
        if self.barren.contains(&(position, sequence)) {
            return Ok(());
        }
        self.met[position] = true;
        let before = self.written;
        for inner_term in &self.system.linears[position].rhs {
            match push_inner(sequence, inner_term.inner, self.slots) {
                Pushed::Zero => {}
                Pushed::Seq([inner, outer]) => self.term(Term::new(inner_term.wire, inner, outer), out)?,
                Pushed::OverBudget => panic!("01: OverBudget never occurs while patching an accepted system"),
            }
        }
        if self.written == before {
            self.barren.insert((position, sequence));
        }
        Ok(())
    }

    fn write(&mut self, term: Term, out: &mut Operand) -> Result<(), Full> {
        if self.written == self.room {
            return Err(Full);
        }
        self.written += 1;
        out.push(term);
        Ok(())
    }
}
