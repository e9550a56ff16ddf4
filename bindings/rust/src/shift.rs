use crate::{ffi, Refusal, Slots};
use std::fmt;

/// The eight shifts of a 64-bit word. The half-word four do the same to each 32-bit half apart.
#[derive(Clone, Copy, Debug, PartialEq, Eq, Hash)]
#[repr(u8)]
pub enum Variant {
    /// Left.
    Sll = 0,
    /// Right, zeros coming in.
    Slr = 1,
    /// Right, the sign coming in.
    Sar = 2,
    /// Turned right.
    Rotr = 3,
    /// Left, by halves.
    Sll32 = 4,
    /// Right by halves, zeros coming in.
    Srl32 = 5,
    /// Right by halves, each half's sign coming in.
    Sra32 = 6,
    /// Turned right, by halves.
    Rotr32 = 7,
}

const VARIANTS: [(Variant, &str); 8] = [
    (Variant::Sll, "sll"),
    (Variant::Slr, "slr"),
    (Variant::Sar, "sar"),
    (Variant::Rotr, "rotr"),
    (Variant::Sll32, "sll32"),
    (Variant::Srl32, "srl32"),
    (Variant::Sra32, "sra32"),
    (Variant::Rotr32, "rotr32"),
];

/// A shift that is valid: its amount is below its width, 64 or, by halves, 32.
///
/// ```
/// use tiwzerand::{Refusal, Shift, Variant};
/// let s = Shift::new(Variant::Sll, 40)?;
/// assert_eq!((s.number(), s.to_string()), (40, "sll 40".into()));
/// assert_eq!(Shift::new(Variant::Sll32, 32), Err(Refusal::Shift));
/// # Ok::<(), Refusal>(())
/// ```
#[derive(Clone, Copy, PartialEq, Eq, Hash)]
pub struct Shift(u16);

impl Shift {
    /// sll 0, which leaves a word as it is.
    pub const IDENTITY: Shift = Shift(0);

    /// The shift of a variant and an amount, or SHIFT.
    pub fn new(variant: Variant, amount: u8) -> Result<Shift, Refusal> {
        if amount >= 64 {
            return Err(Refusal::Shift);
        }
        Shift::from_number(64 * variant as u16 + u16::from(amount))
    }

    /// The shift of a number, 64 x variant + amount, or SHIFT. The library decides: composing with the identity refuses an invalid shift.
    pub fn from_number(number: u16) -> Result<Shift, Refusal> {
        ffi::compose(number.into(), 0).map(|_| Shift(number))
    }

    /// The number: 64 x variant + amount.
    pub fn number(self) -> u16 {
        self.0
    }

    /// The variant.
    pub fn variant(self) -> Variant {
        VARIANTS[usize::from(self.0 / 64)].0
    }

    /// The amount.
    pub fn amount(self) -> u8 {
        (self.0 % 64) as u8
    }

    /// Whether it leaves every word as it is: amount 0 of any variant.
    pub fn is_identity(self) -> bool {
        self.amount() == 0
    }

    /// A number that the library gave back, or that stands in a system that it accepted.
    pub(crate) fn given(number: u64) -> Shift {
        Shift(number as u16)
    }
}

impl fmt::Display for Shift {
    fn fmt(&self, f: &mut fmt::Formatter<'_>) -> fmt::Result {
        write!(f, "{} {}", VARIANTS[usize::from(self.0 / 64)].1, self.amount())
    }
}

impl fmt::Debug for Shift {
    fn fmt(&self, f: &mut fmt::Formatter<'_>) -> fmt::Result {
        fmt::Display::fmt(self, f)
    }
}

/// What two shifts come to, one after the other.
#[derive(Clone, Copy, Debug, PartialEq, Eq)]
pub enum Composition {
    /// One shift does the same.
    Single(Shift),
    /// Every word becomes 0.
    Zero,
    /// No rule makes them one.
    Pair,
}

/// What two shifts come to, `inner` applied first.
///
/// ```
/// use tiwzerand::{compose, Composition, Shift, Variant};
/// let sll = |n| Shift::new(Variant::Sll, n);
/// assert_eq!(compose(sll(40)?, sll(23)?), Composition::Single(sll(63)?));
/// assert_eq!(compose(sll(40)?, sll(24)?), Composition::Zero);
/// # Ok::<(), tiwzerand::Refusal>(())
/// ```
pub fn compose(inner: Shift, outer: Shift) -> Composition {
    match ffi::compose(inner.0.into(), outer.0.into()) {
        Ok([0, number]) => Composition::Single(Shift::given(number)),
        Ok([1, _]) => Composition::Zero,
        Ok(_) => Composition::Pair,
        Err(refusal) => unreachable!("both shifts are valid: {refusal}"),
    }
}

/// What folding one more shift inside two comes to.
#[derive(Clone, Copy, Debug, PartialEq, Eq)]
pub enum Pushed {
    /// The new inner and outer shift.
    Seq(Shift, Shift),
    /// Every word becomes 0.
    Zero,
    /// The slots are too few.
    OverBudget,
}

/// Folds `shift` into `inner` and `outer`, as the new innermost shift: what happens to a term's own shift where its definition is put in
/// the place of a wire that is shifted by `inner`, then `outer`.
pub fn push_inner(inner: Shift, outer: Shift, shift: Shift, slots: Slots) -> Pushed {
    match ffi::push_inner(inner.0.into(), outer.0.into(), shift.0.into(), slots.number()) {
        Ok([0, a, b]) => Pushed::Seq(Shift::given(a), Shift::given(b)),
        Ok([1, ..]) => Pushed::Zero,
        Ok(_) => Pushed::OverBudget,
        Err(refusal) => unreachable!("the three shifts are valid: {refusal}"),
    }
}
