//! Stores that are lent to a call: what stands in them, a pattern behind that, and margins on both sides that no call may touch.

use crate::library::Record;

/// Cells before and after a store.
const MARGIN: usize = 8;

/// What a store is made of.
pub trait Cell: Copy + PartialEq {
    fn of_word(word: u64) -> Self;
}

impl Cell for u64 {
    fn of_word(word: u64) -> Self {
        word
    }
}

impl Cell for u16 {
    fn of_word(word: u64) -> Self {
        word as u16
    }
}

impl Cell for u8 {
    fn of_word(word: u64) -> Self {
        word as u8
    }
}

impl Cell for Record {
    fn of_word(word: u64) -> Self {
        Self { rhs: word, dst: (word >> 20) as u16 }
    }
}

/// A store that is laid anew before each call. The pattern's cells all differ, so that one moved to another's place is seen.
pub struct Lent<T> {
    cells: Vec<T>,
    pattern: Vec<T>,
    len: usize,
}

impl<T: Cell> Default for Lent<T> {
    fn default() -> Self {
        Self { cells: Vec::new(), pattern: Vec::new(), len: 0 }
    }
}

impl<T: Cell> Lent<T> {
    fn grow(&mut self, cells: usize) {
        let from = self.cells.len();
        let pattern = (from..cells).map(|at| T::of_word((at as u64 + 1).wrapping_mul(0x9E37_79B9_7F4A_7C15) >> 3));
        self.pattern.extend(pattern);
        self.cells.extend_from_slice(&self.pattern[from..]);
    }

    /// Lends `len` cells: `front` as far as they reach, then the pattern.
    pub fn lay(&mut self, front: &[T], len: usize) {
        let end = len + 2 * MARGIN;
        if self.cells.len() < end {
            self.grow(end);
        }
        let kept = MARGIN + front.len().min(len);
        self.cells[..MARGIN].copy_from_slice(&self.pattern[..MARGIN]);
        self.cells[MARGIN..kept].copy_from_slice(&front[..kept - MARGIN]);
        self.cells[kept..end].copy_from_slice(&self.pattern[kept..end]);
        self.len = len;
    }

    pub fn cells(&self) -> &[T] {
        &self.cells[MARGIN..MARGIN + self.len]
    }

    pub fn cells_mut(&mut self) -> &mut [T] {
        &mut self.cells[MARGIN..MARGIN + self.len]
    }

    /// Whether everything from a cell on is as it was laid over `front`, and the margins are.
    pub fn keeps(&self, front: &[T], from: usize) -> bool {
        let kept = MARGIN + front.len().min(self.len);
        let from = MARGIN + from.min(self.len);
        let end = self.len + 2 * MARGIN;
        self.cells[..MARGIN] == self.pattern[..MARGIN]
            && (from >= kept || self.cells[from..kept] == front[from - MARGIN..kept - MARGIN])
            && self.cells[from.max(kept)..end] == self.pattern[from.max(kept)..end]
    }
}

#[cfg(test)]
mod tests {
    use super::*;

    #[test]
    fn each_cell_is_watched() {
        let front = [3, 4, 5];
        for len in 0..6 {
            for at in 0..len + 2 * MARGIN {
                let mut lent = Lent::<u64>::default();
                lent.lay(&[7; 20], 20);
                lent.lay(&front, len);
                assert!(lent.keeps(&front, 0));
                lent.cells[at] ^= 1;
                assert!(!lent.keeps(&front, 0));
                let inside = (MARGIN..MARGIN + len).contains(&at);
                assert_eq!(lent.keeps(&front, at.saturating_sub(MARGIN) + 1), inside);
            }
        }
    }

    #[test]
    fn a_store_begins_with_its_front() {
        let mut lent = Lent::<u16>::default();
        lent.lay(&[3, 4, 5], 2);
        assert_eq!(lent.cells(), [3, 4]);
        lent.lay(&[3], 2);
        assert_eq!(lent.cells()[0], 3);
        assert!(lent.keeps(&[], 1) && !lent.keeps(&[], 0));
    }
}
