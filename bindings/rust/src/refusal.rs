use std::{error::Error, fmt};

/// Why an input was not accepted: the numbers of the paper's table.
///
/// A refusal changes nothing: no list, no assignment and no file is half done.
#[derive(Clone, Copy, Debug, PartialEq, Eq, Hash)]
#[non_exhaustive]
#[repr(u8)]
pub enum Refusal {
    /// Under 3 bytes left where a field must start, or payload beyond the input.
    Cut = 1,
    /// First tag is not 1, or a later one is not 2 to 7.
    Tag = 2,
    /// Payload not exactly its parts, or bytes after the end field.
    Shape = 3,
    /// Invalid shift number.
    Shift = 4,
    /// Wire not below the wire count.
    Wire = 5,
    /// Wire count 0 or above 4,096; over 1,024 definitions, 1,024 other constraints in all, 8,192 terms.
    Full = 6,
    /// Slots neither 1 nor 2. [`Slots`](crate::Slots) has no such value, so nothing here gives it.
    Slots = 7,
    /// A wire defined twice.
    Twice = 8,
    /// A definition with no term.
    Empty = 9,
    /// Outer shift not an identity in a definition's term, or in any term naming a defined wire.
    Double = 10,
    /// A definition reaches itself.
    Circle = 11,
    /// Over 16,384 terms in the fused lists.
    Room = 12,
    /// Assignment not as long as the wire count.
    Size = 13,
    /// A record to write is over 65,535 payload bytes.
    Wide = 14,
}

/// Number, name and words, in the order of the numbers.
const TABLE: [(Refusal, &str, &str); 14] = [
    (Refusal::Cut, "CUT", "under 3 bytes left where a field must start, or payload beyond the input"),
    (Refusal::Tag, "TAG", "first tag is not 1, or a later one is not 2 to 7"),
    (Refusal::Shape, "SHAPE", "payload not exactly its parts, or bytes after the end field"),
    (Refusal::Shift, "SHIFT", "invalid shift number"),
    (Refusal::Wire, "WIRE", "wire not below the wire count"),
    (
        Refusal::Full,
        "FULL",
        "wire count 0 or above 4,096; over 1,024 definitions, 1,024 other constraints in all, 8,192 terms",
    ),
    (Refusal::Slots, "SLOTS", "slots neither 1 nor 2"),
    (Refusal::Twice, "TWICE", "a wire defined twice"),
    (Refusal::Empty, "EMPTY", "a definition with no term"),
    (
        Refusal::Double,
        "DOUBLE",
        "outer shift not an identity in a definition's term, or in any term naming a defined wire",
    ),
    (Refusal::Circle, "CIRCLE", "a definition reaches itself"),
    (Refusal::Room, "ROOM", "a lent store too short for the whole result, or over 16,384 terms in the result store"),
    (Refusal::Size, "SIZE", "assignment or wire flags not as long as the wire count"),
    (Refusal::Wide, "WIDE", "a record to write is over 65,535 payload bytes"),
];

impl Refusal {
    /// The number in the table.
    pub fn number(self) -> u8 {
        self as u8
    }

    /// The name in the table, as `"CUT"`.
    pub fn name(self) -> &'static str {
        TABLE[self as usize - 1].1
    }

    /// What a number that the library gave back says.
    pub(crate) fn told(number: u8) -> Result<(), Refusal> {
        match number {
            0 => Ok(()),
            1..=14 => Err(TABLE[number as usize - 1].0),
            _ => panic!("the library gave {number}, which is no number of the table"),
        }
    }
}

impl fmt::Display for Refusal {
    fn fmt(&self, f: &mut fmt::Formatter<'_>) -> fmt::Result {
        let (_, name, words) = TABLE[*self as usize - 1];
        write!(f, "refused {} {name}: {words}", self.number())
    }
}

impl Error for Refusal {}

/// A file that was refused, and where: the first fault in byte order.
#[derive(Clone, Copy, Debug, PartialEq, Eq)]
pub struct Fault {
    /// What is wrong.
    pub refusal: Refusal,
    /// The offset of the field's tag, or of the first byte after the end field.
    pub offset: usize,
}

impl fmt::Display for Fault {
    fn fmt(&self, f: &mut fmt::Formatter<'_>) -> fmt::Result {
        write!(f, "{} (at offset {})", self.refusal, self.offset)
    }
}

impl Error for Fault {
    fn source(&self) -> Option<&(dyn Error + 'static)> {
        Some(&self.refusal)
    }
}
