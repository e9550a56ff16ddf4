//! Shifts by number, from 01's "Shifts": 64 x variant + amount.

pub const SLL: u16 = 0;
pub const SLR: u16 = 1;
pub const SAR: u16 = 2;
pub const ROTR: u16 = 3;
pub const SLL32: u16 = 4;
pub const SRL32: u16 = 5;
pub const SRA32: u16 = 6;
pub const ROTR32: u16 = 7;

/// The canonical identity, sll 0.
pub const IDENTITY: u16 = 0;

pub const fn shift(variant: u16, amount: u16) -> u16 {
    64 * variant + amount
}

pub const fn variant(shift: u16) -> u16 {
    shift / 64
}

pub const fn amount(shift: u16) -> u16 {
    shift % 64
}

pub const fn is_identity(shift: u16) -> bool {
    amount(shift) == 0
}

pub const fn width(variant: u16) -> u16 {
    if variant < 4 { 64 } else { 32 }
}

pub const fn is_cyclic(variant: u16) -> bool {
    variant == ROTR || variant == ROTR32
}

/// The meaning of a shift, bit by bit: where each bit of the result comes from.
pub fn apply(by: u16, word: u64) -> u64 {
    (0..64).fold(0, |out, bit| out | (bit_of_result(by, word, bit) << bit))
}

fn bit_of_result(by: u16, word: u64, bit: i32) -> u64 {
    let width = i32::from(width(variant(by)));
    let distance = i32::from(amount(by));
    let half = bit / width * width;
    let at = bit - half;
    let from = match variant(by) % 4 {
        0 => at - distance,
        _ => at + distance,
    };
    let inside = (0..width).contains(&from);
    match variant(by) % 4 {
        2 => word >> (half + from.min(width - 1)) & 1,
        3 => word >> (half + from % width) & 1,
        _ if inside => word >> (half + from) & 1,
        _ => 0,
    }
}

#[derive(Copy, Clone, Debug, PartialEq, Eq)]
pub enum Composition {
    Single(u16),
    Zero,
    Pair,
}

/// A row of 01's chains: inner and outer variant, the least inner and outer amount, and the variant that the sum is taken as.
const CHAINS: [(u16, u16, u16, u16, u16); 10] = [
    (SLR, SAR, 0, 0, SLR),
    (SRL32, SRA32, 0, 0, SRL32),
    (SLL, SLL32, 32, 0, SLL),
    (SLR, SRL32, 32, 0, SLR),
    (SAR, SRA32, 32, 0, SAR),
    (SLL32, SLL, 0, 32, SLL),
    (SRL32, SLR, 0, 32, SLR),
    (SRA32, SAR, 0, 32, SAR),
    (SLR, SRA32, 33, 0, SLR),
    (SRL32, SAR, 0, 32, SLR),
];

/// What two shifts come to, inner applied first.
pub fn compose(inner: u16, outer: u16) -> Composition {
    if is_identity(inner) {
        return Composition::Single(outer);
    }
    if is_identity(outer) {
        return Composition::Single(inner);
    }
    if rotates_one_bit(inner, outer) {
        return Composition::Single(inner);
    }
    if keeps_only_sign(inner, outer) {
        return Composition::Single(outer);
    }
    match chain(inner, outer) {
        Some(taken_as) => sum(taken_as, amount(inner) + amount(outer)),
        None => Composition::Pair,
    }
}

/// "sar 63 then rotr or rotr32, and sra32 31 then rotr32"
fn rotates_one_bit(inner: u16, outer: u16) -> bool {
    inner == shift(SAR, 63) && is_cyclic(variant(outer)) || inner == shift(SRA32, 31) && variant(outer) == ROTR32
}

/// "sar or sra32 then slr 63, and sra32 then srl32 31"
fn keeps_only_sign(inner: u16, outer: u16) -> bool {
    matches!(variant(inner), SAR | SRA32) && outer == shift(SLR, 63)
        || variant(inner) == SRA32 && outer == shift(SRL32, 31)
}

fn chain(inner: u16, outer: u16) -> Option<u16> {
    if variant(inner) == variant(outer) {
        return Some(variant(inner));
    }
    let row = CHAINS.iter().find(|row| {
        (row.0, row.1) == (variant(inner), variant(outer)) && amount(inner) >= row.2 && amount(outer) >= row.3
    });
    row.map(|row| row.4)
}

fn sum(taken_as: u16, total: u16) -> Composition {
    let width = width(taken_as);
    if total < width {
        return Composition::Single(shift(taken_as, total));
    }
    match taken_as {
        SAR | SRA32 => Composition::Single(shift(taken_as, width - 1)),
        ROTR | ROTR32 if total == width => Composition::Single(IDENTITY),
        ROTR | ROTR32 => Composition::Single(shift(taken_as, total - width)),
        _ => Composition::Zero,
    }
}

#[derive(Copy, Clone, Debug, PartialEq, Eq)]
pub enum Pushed {
    Seq([u16; 2]),
    Zero,
    OverBudget,
}

/// A shift put inside a sequence.
pub fn push_inner([inner, outer]: [u16; 2], by: u16, slots: usize) -> Pushed {
    match compose(by, inner) {
        Composition::Zero => Pushed::Zero,
        Composition::Single(merged) => beside_outer(merged, outer),
        Composition::Pair if slots > 1 && is_identity(outer) => Pushed::Seq([by, inner]),
        Composition::Pair => Pushed::OverBudget,
    }
}

fn beside_outer(inner: u16, outer: u16) -> Pushed {
    match compose(inner, outer) {
        Composition::Zero => Pushed::Zero,
        Composition::Pair => Pushed::Seq([inner, outer]),
        Composition::Single(lone) if is_identity(lone) => Pushed::Seq([IDENTITY, IDENTITY]),
        Composition::Single(lone) => Pushed::Seq([lone, IDENTITY]),
    }
}
