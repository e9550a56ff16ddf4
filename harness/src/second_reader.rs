//! A second reader of house files, to check the first by: it keeps a stack of the numbers that a payload still owes, and no system.

use crate::{
    house::{CUT, FULL, Fault, Refusal, SHAPE, SHIFT, TAG, WIRE},
    system::System,
};

/// What the next number of a payload is.
#[derive(Copy, Clone)]
enum Owed {
    WireCount,
    Wire,
    Shift,
    TermCount,
}

/// How often each thing was read.
#[derive(Default)]
struct Seen {
    wires: u32,
    definitions: u32,
    others: u32,
    terms: u32,
}

/// The fields of a file, each as its tag and the numbers of its payload.
pub type Fields = Vec<(u8, Vec<u16>)>;

pub fn read(bytes: &[u8]) -> Result<Fields, Fault> {
    let mut fields = Fields::new();
    let mut seen = Seen::default();
    let mut at = 0;
    while at + 3 <= bytes.len() {
        let tag = bytes[at];
        let allowed: &[u8] = if at == 0 { &[1] } else { &[2, 3, 4, 5, 6, 7] };
        let end = at + 3 + bytes[at + 1] as usize + 256 * bytes[at + 2] as usize;
        let refusal = if !allowed.contains(&tag) {
            Some(TAG)
        } else if end > bytes.len() {
            Some(CUT)
        } else {
            None
        };
        if let Some(refusal) = refusal {
            return Err(Fault { refusal, offset: at });
        }
        let numbers = payload(tag, &bytes[at + 3..end], &mut seen);
        fields.push((tag, numbers.map_err(|refusal| Fault { refusal, offset: at })?));
        if tag == 7 {
            return match bytes.len() {
                length if length == end => Ok(fields),
                _ => Err(Fault { refusal: SHAPE, offset: end }),
            };
        }
        at = end;
    }
    Err(Fault { refusal: CUT, offset: at })
}

/// What a field owes, last first.
fn owed_by(tag: u8) -> Vec<Owed> {
    match tag {
        1 => vec![Owed::WireCount],
        2 => vec![Owed::TermCount; 3],
        3 => vec![Owed::TermCount; 4],
        4 => vec![Owed::TermCount; 6],
        5 => vec![Owed::TermCount],
        6 => vec![Owed::TermCount, Owed::Wire],
        _ => vec![],
    }
}

fn payload(tag: u8, bytes: &[u8], seen: &mut Seen) -> Result<Vec<u16>, Refusal> {
    let mut owed = owed_by(tag);
    let mut numbers = Vec::new();
    let mut at = 0;
    while let Some(next) = owed.pop() {
        if at + 2 > bytes.len() {
            return Err(SHAPE);
        }
        let number = bytes[at] as u16 + 256 * bytes[at + 1] as u16;
        at += 2;
        numbers.push(number);
        match next {
            Owed::WireCount => seen.wires = number.into(),
            Owed::Wire if u32::from(number) >= seen.wires => return Err(WIRE),
            Owed::Wire => {}
            Owed::Shift if number >= 512 || number >= 256 && number % 64 >= 32 => return Err(SHIFT),
            Owed::Shift => {}
            Owed::TermCount if usize::from(number) > (bytes.len() - at) / 6 => return Err(SHAPE),
            Owed::TermCount => {
                seen.terms += u32::from(number);
                for _ in 0..number {
                    owed.extend([Owed::Shift, Owed::Shift, Owed::Wire]);
                }
            }
        }
    }
    if at < bytes.len() {
        return Err(SHAPE);
    }
    match tag {
        2..=5 => seen.others += 1,
        6 => seen.definitions += 1,
        _ => {}
    }
    let full =
        seen.wires == 0 || seen.wires > 4096 || seen.definitions > 1024 || seen.others > 1024 || seen.terms > 8192;
    if full { Err(FULL) } else { Ok(numbers) }
}

/// Whether a system is what the fields say, list by list.
pub fn describes(fields: &Fields, system: &System) -> bool {
    let with_tag = |wanted: u8| {
        let numbers = fields.iter().filter(move |(tag, _)| *tag == wanted);
        numbers.map(|(_, numbers)| numbers.clone()).collect::<Vec<_>>()
    };
    let lists = (0..4u8).all(|kind| {
        let constraints = &system.others[usize::from(kind)];
        let flat = constraints.iter().map(|constraint| constraint.iter().flat_map(|operand| flat(operand)).collect());
        with_tag(2 + kind) == flat.collect::<Vec<Vec<u16>>>()
    });
    let definitions = system.linears.iter().map(|definition| [vec![definition.dst], flat(&definition.rhs)].concat());
    lists && with_tag(6) == definitions.collect::<Vec<_>>() && with_tag(1) == [vec![system.wires as u16]]
}

fn flat(operand: &[crate::system::Term]) -> Vec<u16> {
    let terms = operand.iter().flat_map(|term| [term.wire, term.inner, term.outer]);
    std::iter::once(operand.len() as u16).chain(terms).collect()
}
