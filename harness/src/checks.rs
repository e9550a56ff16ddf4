//! The faults that fusing looks for in memory, from 01: each over the whole system before the next.

use crate::{
    house::{CIRCLE, DOUBLE, EMPTY, FULL, Refusal, SHAPE, SHIFT, SLOTS, TWICE, WIRE, is_full, is_shift},
    system::{OPERANDS, Operand, System, Term},
};

/// The first fault of a system that is to be fused, ROOM apart.
pub fn check(system: &System, slots: usize) -> Result<(), Refusal> {
    check_numbers(system)?;
    if is_full(system) {
        return Err(FULL);
    }
    if !(1..=2).contains(&slots) {
        return Err(SLOTS);
    }
    check_definitions(system)
}

/// TWICE, EMPTY, DOUBLE, CIRCLE.
pub fn check_definitions(system: &System) -> Result<(), Refusal> {
    if defines_twice(system) {
        return Err(TWICE);
    }
    if system.linears.iter().any(|definition| definition.rhs.is_empty()) {
        return Err(EMPTY);
    }
    if is_doubled(system) {
        return Err(DOUBLE);
    }
    if has_circle(system) {
        return Err(CIRCLE);
    }
    Ok(())
}

fn check_numbers(system: &System) -> Result<(), Refusal> {
    for (kind, list) in system.others.iter().enumerate() {
        for constraint in list {
            if constraint.len() != OPERANDS[kind] {
                return Err(SHAPE);
            }
            for operand in constraint {
                check_operand(system, operand)?;
            }
        }
    }
    for definition in &system.linears {
        check_wire(system, definition.dst)?;
        check_operand(system, &definition.rhs)?;
    }
    Ok(())
}

fn check_operand(system: &System, operand: &Operand) -> Result<(), Refusal> {
    for term in operand {
        check_wire(system, term.wire)?;
        if !is_shift(term.inner) || !is_shift(term.outer) {
            return Err(SHIFT);
        }
    }
    Ok(())
}

fn check_wire(system: &System, wire: u16) -> Result<(), Refusal> {
    if usize::from(wire) < system.wires { Ok(()) } else { Err(WIRE) }
}

fn defines_twice(system: &System) -> bool {
    let mut seen = vec![false; system.wires];
    let mut destinations = system.linears.iter().map(|definition| usize::from(definition.dst));
    destinations.any(|dst| std::mem::replace(&mut seen[dst], true))
}

fn is_doubled(system: &System) -> bool {
    let definition_of = system.definition_of();
    let in_others = system.others.iter().flatten().flatten().flatten();
    let in_definitions = system.linears.iter().flat_map(|definition| &definition.rhs);
    let has_outer = |term: &&Term| term.outer % 64 != 0;
    let defined = |term: &&Term| definition_of[usize::from(term.wire)].is_some();
    in_definitions.clone().any(|term| has_outer(&term)) || in_others.filter(has_outer).any(|term| defined(&term))
}

/// Whether some definition is never free of definitions that wait for others: taking away those that name no definition, again and again,
/// leaves some.
fn has_circle(system: &System) -> bool {
    let definition_of = system.definition_of();
    let mut waits_for = vec![0usize; system.linears.len()];
    let mut named_by = vec![Vec::new(); system.linears.len()];
    for (position, definition) in system.linears.iter().enumerate() {
        for term in &definition.rhs {
            if let Some(named) = definition_of[usize::from(term.wire)] {
                waits_for[position] += 1;
                named_by[named].push(position);
            }
        }
    }
    let mut free: Vec<usize> = (0..waits_for.len()).filter(|&at| waits_for[at] == 0).collect();
    let mut taken = 0;
    while let Some(position) = free.pop() {
        taken += 1;
        for &waiting in &named_by[position] {
            waits_for[waiting] -= 1;
            if waits_for[waiting] == 0 {
                free.push(waiting);
            }
        }
    }
    taken < system.linears.len()
}
