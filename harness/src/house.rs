//! The house file: a strict reader and a writer, both from 01.

use crate::system::{
    Constraint, Definition, KINDS, MAX_DEFINITIONS, MAX_OTHERS, MAX_TERMS, MAX_WIRES, OPERANDS, Operand, System, Term,
};

/// A number of 01's table.
pub type Refusal = u8;
pub const CUT: Refusal = 1;
pub const TAG: Refusal = 2;
pub const SHAPE: Refusal = 3;
pub const SHIFT: Refusal = 4;
pub const WIRE: Refusal = 5;
pub const FULL: Refusal = 6;
pub const SLOTS: Refusal = 7;
pub const TWICE: Refusal = 8;
pub const EMPTY: Refusal = 9;
pub const DOUBLE: Refusal = 10;
pub const CIRCLE: Refusal = 11;
pub const ROOM: Refusal = 12;
pub const SIZE: Refusal = 13;
pub const WIDE: Refusal = 14;

pub const TAG_WIRES: u8 = 1;
/// The tag of the first list; the other lists follow in `ConstraintRef` order.
pub const TAG_AND: u8 = 2;
pub const TAG_LINEAR: u8 = 6;
pub const TAG_END: u8 = 7;

/// A fault of a file, and the offset that 01 gives with it.
#[derive(Copy, Clone, Debug, PartialEq, Eq)]
pub struct Fault {
    pub refusal: Refusal,
    pub offset: usize,
}

/// Whether a number names a shift: its amount is below its variant's width.
pub fn is_shift(number: u16) -> bool {
    match number / 64 {
        0..=3 => true,
        4..=7 => number % 64 < 32,
        _ => false,
    }
}

/// Reads a whole file, or gives its first fault in byte order.
pub fn read(bytes: &[u8]) -> Result<System, Fault> {
    let mut system = System::default();
    let mut offset = 0;
    loop {
        let fault = |refusal| Fault { refusal, offset };
        let field = field_at(bytes, offset).map_err(fault)?;
        let after = offset + 3 + field.payload.len();
        if field.tag == TAG_END {
            return read_end(bytes, field, offset, after).map(|()| system);
        }
        read_field(&mut system, field).map_err(fault)?;
        offset = after;
    }
}

struct Field<'a> {
    tag: u8,
    payload: &'a [u8],
}

fn field_at(bytes: &[u8], offset: usize) -> Result<Field<'_>, Refusal> {
    let [tag, low, high, rest @ ..] = &bytes[offset..] else {
        return Err(CUT);
    };
    let expected = if offset == 0 { *tag == TAG_WIRES } else { (TAG_AND..=TAG_END).contains(tag) };
    if !expected {
        return Err(TAG);
    }
    let length = usize::from(u16::from_le_bytes([*low, *high]));
    let payload = rest.get(..length).ok_or(CUT)?;
    Ok(Field { tag: *tag, payload })
}

fn read_end(bytes: &[u8], field: Field<'_>, offset: usize, after: usize) -> Result<(), Fault> {
    if !field.payload.is_empty() {
        return Err(Fault { refusal: SHAPE, offset });
    }
    if after < bytes.len() {
        return Err(Fault { refusal: SHAPE, offset: after });
    }
    Ok(())
}

fn read_field(system: &mut System, field: Field<'_>) -> Result<(), Refusal> {
    let mut parts = Parts { left: field.payload, wires: system.wires };
    match field.tag {
        TAG_WIRES => system.wires = usize::from(parts.number()?),
        TAG_LINEAR => {
            let definition = parts.definition()?;
            system.linears.push(definition);
        }
        tag => {
            let kind = usize::from(tag - TAG_AND);
            let constraint = parts.constraint(OPERANDS[kind])?;
            system.others[kind].push(constraint);
        }
    }
    if !parts.left.is_empty() {
        return Err(SHAPE);
    }
    if is_full(system) {
        return Err(FULL);
    }
    Ok(())
}

/// Whether the system goes over one of 01's limits.
pub fn is_full(system: &System) -> bool {
    let wires_fit = (1..=MAX_WIRES).contains(&system.wires);
    !wires_fit
        || system.linears.len() > MAX_DEFINITIONS
        || system.other_count() > MAX_OTHERS
        || system.term_count() > MAX_TERMS
}

/// What is left of a payload, and what its wires must stay below.
struct Parts<'a> {
    left: &'a [u8],
    wires: usize,
}

impl Parts<'_> {
    fn number(&mut self) -> Result<u16, Refusal> {
        let [low, high, left @ ..] = self.left else {
            return Err(SHAPE);
        };
        self.left = left;
        Ok(u16::from_le_bytes([*low, *high]))
    }

    fn wire(&mut self) -> Result<u16, Refusal> {
        let wire = self.number()?;
        if usize::from(wire) < self.wires { Ok(wire) } else { Err(WIRE) }
    }

    fn shift(&mut self) -> Result<u16, Refusal> {
        let shift = self.number()?;
        if is_shift(shift) { Ok(shift) } else { Err(SHIFT) }
    }

    fn term(&mut self) -> Result<Term, Refusal> {
        Ok(Term { wire: self.wire()?, inner: self.shift()?, outer: self.shift()? })
    }

    /// A count that cannot fit is a fault of the shape, before its first term is looked at.
    fn operand(&mut self) -> Result<Operand, Refusal> {
        let count = usize::from(self.number()?);
        if 6 * count > self.left.len() {
            return Err(SHAPE);
        }
        (0..count).map(|_| self.term()).collect()
    }

    fn constraint(&mut self, operands: usize) -> Result<Constraint, Refusal> {
        (0..operands).map(|_| self.operand()).collect()
    }

    fn definition(&mut self) -> Result<Definition, Refusal> {
        Ok(Definition { dst: self.wire()?, rhs: self.operand()? })
    }
}

/// Writes a system in tag order; WIDE if a record's payload is too long for its length.
pub fn write(system: &System) -> Result<Vec<u8>, Refusal> {
    let mut bytes = Vec::new();
    write_field(&mut bytes, TAG_WIRES, &(system.wires as u16).to_le_bytes())?;
    for kind in 0..KINDS {
        for constraint in &system.others[kind] {
            let payload = constraint.iter().flat_map(|operand| operand_bytes(operand));
            write_field(&mut bytes, TAG_AND + kind as u8, &payload.collect::<Vec<_>>())?;
        }
    }
    for definition in &system.linears {
        let mut payload = definition.dst.to_le_bytes().to_vec();
        payload.extend(operand_bytes(&definition.rhs));
        write_field(&mut bytes, TAG_LINEAR, &payload)?;
    }
    write_field(&mut bytes, TAG_END, &[])?;
    Ok(bytes)
}

fn write_field(bytes: &mut Vec<u8>, tag: u8, payload: &[u8]) -> Result<(), Refusal> {
    let length = u16::try_from(payload.len()).map_err(|_| WIDE)?;
    bytes.push(tag);
    bytes.extend(length.to_le_bytes());
    bytes.extend(payload);
    Ok(())
}

fn operand_bytes(operand: &[Term]) -> Vec<u8> {
    let mut bytes = (operand.len() as u16).to_le_bytes().to_vec();
    for term in operand {
        for number in [term.wire, term.inner, term.outer] {
            bytes.extend(number.to_le_bytes());
        }
    }
    bytes
}
