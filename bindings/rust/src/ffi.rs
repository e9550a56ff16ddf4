//! The functions of libtiwzerand.a, and the only unsafe code of this crate.
//!
//! Why each call below is sound: every pointer and length is of a slice that lives through the call; what is written comes from a `&mut`,
//! which overlaps nothing else; the functions read and write only within the lengths and keep no pointer, for all numbers handed in: they
//! are proved to, and none has a condition that its caller must meet. (A stack that is too short ends at its guard page, as in Rust.)
#![allow(unsafe_code)]

use crate::{lists::Rows, Fault, Lists, Refusal};

/// Limits of a system to read: wires, definitions, other constraints in all, terms.
const MAX_DEFINITIONS: usize = 1024;
const MAX_OTHERS: usize = 1024;
const MAX_TERMS: usize = 8192;

/// Terms that fusing may write.
const MAX_NEW_TERMS: usize = 16384;

/// Bytes of the longest file: 24,576 terms, 1,024 records of six operands and 1,024 of one, the first field and the end.
const MAX_FILE: usize = 24576 * 6 + 1024 * 15 + 1024 * 7 + 8;

mod raw {
    // A slice is a pointer and a number of elements: bindings/c/tiwzerand.h has the same prototypes, with names.
    extern "C" {
        pub fn tiwzerand_compose(inner: u64, outer: u64, values: *mut u64, values_len: usize) -> u8;

        pub fn tiwzerand_push_inner(
            inner: u64,
            outer: u64,
            shift: u64,
            slots: u64,
            values: *mut u64,
            values_len: usize,
        ) -> u8;

        pub fn tiwzerand_read(
            input: *const u8,
            input_len: usize,
            terms: *mut u64,
            terms_len: usize,
            ands: *mut u64,
            ands_len: usize,
            imuls: *mut u64,
            imuls_len: usize,
            bmuls: *mut u64,
            bmuls_len: usize,
            zeros: *mut u64,
            zeros_len: usize,
            dsts: *mut u16,
            dsts_len: usize,
            rhss: *mut u64,
            rhss_len: usize,
            values: *mut u64,
            values_len: usize,
        ) -> u8;

        pub fn tiwzerand_fuse(
            old: *const u64,
            old_len: usize,
            new: *mut u64,
            new_len: usize,
            ands: *mut u64,
            ands_len: usize,
            imuls: *mut u64,
            imuls_len: usize,
            bmuls: *mut u64,
            bmuls_len: usize,
            zeros: *mut u64,
            zeros_len: usize,
            dsts: *mut u16,
            dsts_len: usize,
            rhss: *mut u64,
            rhss_len: usize,
            flags: *mut u8,
            flags_len: usize,
            wires: usize,
            n_ands: usize,
            n_imuls: usize,
            n_bmuls: usize,
            n_zeros: usize,
            n_linears: usize,
            slots: u64,
            values: *mut u64,
            values_len: usize,
        ) -> u8;

        pub fn tiwzerand_write(
            old: *const u64,
            old_len: usize,
            new: *const u64,
            new_len: usize,
            ands: *const u64,
            ands_len: usize,
            imuls: *const u64,
            imuls_len: usize,
            bmuls: *const u64,
            bmuls_len: usize,
            zeros: *const u64,
            zeros_len: usize,
            dsts: *const u16,
            dsts_len: usize,
            rhss: *const u64,
            rhss_len: usize,
            wires: usize,
            n_ands: usize,
            n_imuls: usize,
            n_bmuls: usize,
            n_zeros: usize,
            n_linears: usize,
            out: *mut u8,
            out_len: usize,
            values: *mut u64,
            values_len: usize,
        ) -> u8;

        pub fn tiwzerand_evaluate(
            old: *const u64,
            old_len: usize,
            new: *const u64,
            new_len: usize,
            ands: *const u64,
            ands_len: usize,
            imuls: *const u64,
            imuls_len: usize,
            bmuls: *const u64,
            bmuls_len: usize,
            zeros: *const u64,
            zeros_len: usize,
            dsts: *const u16,
            dsts_len: usize,
            rhss: *const u64,
            rhss_len: usize,
            wires: usize,
            n_ands: usize,
            n_imuls: usize,
            n_bmuls: usize,
            n_zeros: usize,
            n_linears: usize,
            assignment: *const u64,
            assignment_len: usize,
            out: *mut u64,
            out_len: usize,
            values: *mut u64,
            values_len: usize,
        ) -> u8;

        pub fn tiwzerand_fill_back(
            old: *const u64,
            old_len: usize,
            ands: *const u64,
            ands_len: usize,
            imuls: *const u64,
            imuls_len: usize,
            bmuls: *const u64,
            bmuls_len: usize,
            zeros: *const u64,
            zeros_len: usize,
            dsts: *const u16,
            dsts_len: usize,
            rhss: *const u64,
            rhss_len: usize,
            wires: usize,
            n_ands: usize,
            n_imuls: usize,
            n_bmuls: usize,
            n_zeros: usize,
            n_linears: usize,
            flags: *const u8,
            flags_len: usize,
            assignment: *mut u64,
            assignment_len: usize,
        ) -> u8;
    }
}

/// A case, and the one shift's number.
pub(crate) fn compose(inner: u64, outer: u64) -> Result<[u64; 2], Refusal> {
    let mut values = [0; 2];
    // SAFETY: `values` is a live array, and the two lengths are one.
    let number = unsafe { raw::tiwzerand_compose(inner, outer, values.as_mut_ptr(), values.len()) };
    Refusal::told(number).map(|()| values)
}

/// A case, and the numbers of the inner and the outer shift.
pub(crate) fn push_inner(inner: u64, outer: u64, shift: u64, slots: u64) -> Result<[u64; 3], Refusal> {
    let mut values = [0; 3];
    // SAFETY: `values` is a live array, and the two lengths are one.
    let number = unsafe { raw::tiwzerand_push_inner(inner, outer, shift, slots, values.as_mut_ptr(), values.len()) };
    Refusal::told(number).map(|()| values)
}

/// The terms and the lists of a house file.
pub(crate) fn read(input: &[u8]) -> Result<(Vec<u64>, Rows), Fault> {
    let mut terms = vec![0; MAX_TERMS];
    let mut rows = Rows {
        wires: 0,
        ands: vec![0; 3 * MAX_OTHERS],
        imuls: vec![0; 4 * MAX_OTHERS],
        bmuls: vec![0; 6 * MAX_OTHERS],
        zeros: vec![0; MAX_OTHERS],
        dsts: vec![0; MAX_DEFINITIONS],
        rhss: vec![0; MAX_DEFINITIONS],
    };
    let mut values = [0; 7];
    // SAFETY: each pointer and length is of one live slice; those written are distinct vectors and `values`.
    let number = unsafe {
        raw::tiwzerand_read(
            input.as_ptr(),
            input.len(),
            terms.as_mut_ptr(),
            terms.len(),
            rows.ands.as_mut_ptr(),
            rows.ands.len(),
            rows.imuls.as_mut_ptr(),
            rows.imuls.len(),
            rows.bmuls.as_mut_ptr(),
            rows.bmuls.len(),
            rows.zeros.as_mut_ptr(),
            rows.zeros.len(),
            rows.dsts.as_mut_ptr(),
            rows.dsts.len(),
            rows.rhss.as_mut_ptr(),
            rows.rhss.len(),
            values.as_mut_ptr(),
            values.len(),
        )
    };
    let count = values.map(|v| v as usize);
    Refusal::told(number).map_err(|refusal| Fault { refusal, offset: count[0] })?;
    terms.truncate(count[6]);
    rows.wires = count[0];
    rows.ands.truncate(3 * count[1]);
    rows.imuls.truncate(4 * count[2]);
    rows.bmuls.truncate(6 * count[3]);
    rows.zeros.truncate(count[4]);
    rows.dsts.truncate(count[5]);
    rows.rhss.truncate(count[5]);
    Ok((terms, rows))
}

/// What fusing leaves besides the patched lists.
pub(crate) struct Left {
    pub new: Vec<u64>,
    pub flags: Vec<u8>,
    /// Gone, stranded, committed, written, kept.
    pub counts: [usize; 5],
}

/// Fuses the lists in place. On a refusal they are as they were.
pub(crate) fn fuse(old: &[u64], rows: &mut Rows, slots: u64) -> Result<Left, Refusal> {
    let mut new = vec![0; MAX_NEW_TERMS];
    let mut flags = vec![0; rows.wires];
    let mut values = [0; 5];
    let (n_ands, n_imuls, n_bmuls) = (rows.ands.len() / 3, rows.imuls.len() / 4, rows.bmuls.len() / 6);
    let (n_zeros, n_linears) = (rows.zeros.len(), rows.dsts.len());
    // SAFETY: each pointer and length is of one live slice; those written are distinct vectors and `values`, and `old` is none of them.
    let number = unsafe {
        raw::tiwzerand_fuse(
            old.as_ptr(),
            old.len(),
            new.as_mut_ptr(),
            new.len(),
            rows.ands.as_mut_ptr(),
            rows.ands.len(),
            rows.imuls.as_mut_ptr(),
            rows.imuls.len(),
            rows.bmuls.as_mut_ptr(),
            rows.bmuls.len(),
            rows.zeros.as_mut_ptr(),
            rows.zeros.len(),
            rows.dsts.as_mut_ptr(),
            rows.dsts.len(),
            rows.rhss.as_mut_ptr(),
            rows.rhss.len(),
            flags.as_mut_ptr(),
            flags.len(),
            rows.wires,
            n_ands,
            n_imuls,
            n_bmuls,
            n_zeros,
            n_linears,
            slots,
            values.as_mut_ptr(),
            values.len(),
        )
    };
    Refusal::told(number)?;
    let counts = values.map(|v: u64| v as usize);
    new.truncate(counts[3]);
    rows.dsts.truncate(counts[1] + counts[2]);
    rows.rhss.truncate(counts[1] + counts[2]);
    Ok(Left { new, flags, counts })
}

/// The lists as a house file.
pub(crate) fn write(lists: Lists<'_>) -> Result<Vec<u8>, Refusal> {
    let mut out = vec![0; MAX_FILE];
    let mut values = [0; 1];
    let rows = lists.rows;
    // SAFETY: each pointer and length is of one live slice; only `out` and `values` are written.
    let number = unsafe {
        raw::tiwzerand_write(
            lists.old.as_ptr(),
            lists.old.len(),
            lists.new.as_ptr(),
            lists.new.len(),
            rows.ands.as_ptr(),
            rows.ands.len(),
            rows.imuls.as_ptr(),
            rows.imuls.len(),
            rows.bmuls.as_ptr(),
            rows.bmuls.len(),
            rows.zeros.as_ptr(),
            rows.zeros.len(),
            rows.dsts.as_ptr(),
            rows.dsts.len(),
            rows.rhss.as_ptr(),
            rows.rhss.len(),
            rows.wires,
            rows.ands.len() / 3,
            rows.imuls.len() / 4,
            rows.bmuls.len() / 6,
            rows.zeros.len(),
            rows.dsts.len(),
            out.as_mut_ptr(),
            out.len(),
            values.as_mut_ptr(),
            values.len(),
        )
    };
    Refusal::told(number)?;
    out.truncate(values[0] as usize);
    out.shrink_to_fit();
    Ok(out)
}

/// The words of all operands.
pub(crate) fn evaluate(lists: Lists<'_>, assignment: &[u64]) -> Result<Vec<u64>, Refusal> {
    let rows = lists.rows;
    let mut out = vec![0; rows.operands()];
    let mut values = [0; 1];
    // SAFETY: each pointer and length is of one live slice; only `out` and `values` are written.
    let number = unsafe {
        raw::tiwzerand_evaluate(
            lists.old.as_ptr(),
            lists.old.len(),
            lists.new.as_ptr(),
            lists.new.len(),
            rows.ands.as_ptr(),
            rows.ands.len(),
            rows.imuls.as_ptr(),
            rows.imuls.len(),
            rows.bmuls.as_ptr(),
            rows.bmuls.len(),
            rows.zeros.as_ptr(),
            rows.zeros.len(),
            rows.dsts.as_ptr(),
            rows.dsts.len(),
            rows.rhss.as_ptr(),
            rows.rhss.len(),
            rows.wires,
            rows.ands.len() / 3,
            rows.imuls.len() / 4,
            rows.bmuls.len() / 6,
            rows.zeros.len(),
            rows.dsts.len(),
            assignment.as_ptr(),
            assignment.len(),
            out.as_mut_ptr(),
            out.len(),
            values.as_mut_ptr(),
            values.len(),
        )
    };
    Refusal::told(number).map(|()| out)
}

/// Gives each defined wire without a flag the word of its definition.
pub(crate) fn fill_back(old: &[u64], rows: &Rows, flags: &[u8], assignment: &mut [u64]) -> Result<(), Refusal> {
    // SAFETY: each pointer and length is of one live slice; only `assignment`, which is lent mutably, is written.
    let number = unsafe {
        raw::tiwzerand_fill_back(
            old.as_ptr(),
            old.len(),
            rows.ands.as_ptr(),
            rows.ands.len(),
            rows.imuls.as_ptr(),
            rows.imuls.len(),
            rows.bmuls.as_ptr(),
            rows.bmuls.len(),
            rows.zeros.as_ptr(),
            rows.zeros.len(),
            rows.dsts.as_ptr(),
            rows.dsts.len(),
            rows.rhss.as_ptr(),
            rows.rhss.len(),
            rows.wires,
            rows.ands.len() / 3,
            rows.imuls.len() / 4,
            rows.bmuls.len() / 6,
            rows.zeros.len(),
            rows.dsts.len(),
            flags.as_ptr(),
            flags.len(),
            assignment.as_mut_ptr(),
            assignment.len(),
        )
    };
    Refusal::told(number)
}
