//! The project's static library: its C functions, and a safe call of each.

use crate::house::Refusal;

/// A definition, as the form over records has it.
#[repr(C)]
#[derive(Copy, Clone, Debug, Default, PartialEq, Eq)]
pub struct Record {
    pub rhs: u64,
    pub dst: u16,
}

// A slice is a pointer and a length: of numbers that are read, of numbers, wires, bytes and records that may be filled.
type Len = usize;
type In = *const u64;
type Out = *mut u64;

/// Types of the functions, and where `ours` is on the functions themselves.
macro_rules! functions {
    ($($(#[$gate:meta])? $name:ident = $symbol:ident($($argument:ty),* $(,)?);)*) => {
        $(pub type $name = unsafe extern "C" fn($($argument),*) -> u8;)*

        #[cfg(feature = "ours")]
        mod symbols {
            #[cfg(feature = "records")]
            use super::Record;
            use super::{In, Len, Out};
            unsafe extern "C" {
                $($(#[$gate])? pub fn $symbol($(_: $argument),*) -> u8;)*
            }
        }
    };
}

#[rustfmt::skip]
functions! {
    Compose = tiwzerand_compose(u64, u64, Out, Len);
    PushInner = tiwzerand_push_inner(u64, u64, u64, u64, Out, Len);
    Read = tiwzerand_read(
        *const u8, Len, Out, Len, Out, Len, Out, Len, Out, Len, Out, Len, *mut u16, Len, Out, Len, Out, Len,
    );
    Fuse = tiwzerand_fuse(
        In, Len, Out, Len, Out, Len, Out, Len, Out, Len, Out, Len, *mut u16, Len, Out, Len, *mut u8, Len,
        usize, usize, usize, usize, usize, usize, u64, Out, Len,
    );
    Write = tiwzerand_write(
        In, Len, In, Len, In, Len, In, Len, In, Len, In, Len, *const u16, Len, In, Len,
        usize, usize, usize, usize, usize, usize, *mut u8, Len, Out, Len,
    );
    Evaluate = tiwzerand_evaluate(
        In, Len, In, Len, In, Len, In, Len, In, Len, In, Len, *const u16, Len, In, Len,
        usize, usize, usize, usize, usize, usize, In, Len, Out, Len, Out, Len,
    );
    FillBack = tiwzerand_fill_back(
        In, Len, In, Len, In, Len, In, Len, In, Len, *const u16, Len, In, Len,
        usize, usize, usize, usize, usize, usize, *const u8, Len, Out, Len,
    );
    #[cfg(feature = "records")]
    ReadRecords = tiwzerand_read_records(
        *const u8, Len, Out, Len, Out, Len, Out, Len, Out, Len, Out, Len, *mut Record, Len, Out, Len,
    );
    #[cfg(feature = "records")]
    FuseRecords = tiwzerand_fuse_records(
        In, Len, Out, Len, Out, Len, Out, Len, Out, Len, Out, Len, *mut Record, Len, *mut u8, Len,
        usize, usize, usize, usize, usize, usize, u64, Out, Len,
    );
    #[cfg(feature = "records")]
    WriteRecords = tiwzerand_write_records(
        In, Len, In, Len, In, Len, In, Len, In, Len, In, Len, *const Record, Len,
        usize, usize, usize, usize, usize, usize, *mut u8, Len, Out, Len,
    );
    #[cfg(feature = "records")]
    EvaluateRecords = tiwzerand_evaluate_records(
        In, Len, In, Len, In, Len, In, Len, In, Len, In, Len, *const Record, Len,
        usize, usize, usize, usize, usize, usize, In, Len, Out, Len, Out, Len,
    );
    #[cfg(feature = "records")]
    FillBackRecords = tiwzerand_fill_back_records(
        In, Len, In, Len, In, Len, In, Len, In, Len, *const Record, Len,
        usize, usize, usize, usize, usize, usize, *const u8, Len, Out, Len,
    );
}

/// The functions over records.
#[derive(Copy, Clone)]
pub struct OverRecords {
    pub read: ReadRecords,
    pub fuse: FuseRecords,
    pub write: WriteRecords,
    pub evaluate: EvaluateRecords,
    pub fill_back: FillBackRecords,
}

/// What a call left, for a test to spoil.
pub struct Answer<'a> {
    pub of: &'static str,
    pub refusal: &'a mut Refusal,
    /// Terms, rows, right sides unless there are records, words, and the values last.
    pub numbers: &'a mut [&'a mut [u64]],
    pub dsts: &'a mut [u16],
    pub records: &'a mut [Record],
    pub bytes: &'a mut [u8],
}

#[derive(Copy, Clone)]
pub struct Library {
    pub compose: Compose,
    pub push_inner: PushInner,
    pub read: Read,
    pub fuse: Fuse,
    pub write: Write,
    pub evaluate: Evaluate,
    pub fill_back: FillBack,
    /// Nothing without the feature `records`.
    pub over_records: Option<OverRecords>,
    /// Makes a wrong library of a right one: what it changes has to be noticed.
    pub spoil: Option<fn(Answer<'_>)>,
}

/// The library that is linked; nothing without the feature `ours`.
#[cfg(feature = "ours")]
pub fn linked() -> Option<&'static Library> {
    #[cfg(feature = "records")]
    const OVER_RECORDS: Option<OverRecords> = Some(OverRecords {
        read: symbols::tiwzerand_read_records,
        fuse: symbols::tiwzerand_fuse_records,
        write: symbols::tiwzerand_write_records,
        evaluate: symbols::tiwzerand_evaluate_records,
        fill_back: symbols::tiwzerand_fill_back_records,
    });
    #[cfg(not(feature = "records"))]
    const OVER_RECORDS: Option<OverRecords> = None;
    static LINKED: Library = Library {
        compose: symbols::tiwzerand_compose,
        push_inner: symbols::tiwzerand_push_inner,
        read: symbols::tiwzerand_read,
        fuse: symbols::tiwzerand_fuse,
        write: symbols::tiwzerand_write,
        evaluate: symbols::tiwzerand_evaluate,
        fill_back: symbols::tiwzerand_fill_back,
        over_records: OVER_RECORDS,
        spoil: None,
    };
    Some(&LINKED)
}

#[cfg(not(feature = "ours"))]
pub fn linked() -> Option<&'static Library> {
    None
}

/// How much of the lists counts.
#[derive(Copy, Clone, Debug, Default, PartialEq, Eq)]
pub struct Sizes {
    pub wires: usize,
    /// And, Imul, Bmul, Zero, Linear.
    pub counts: [usize; 5],
}

/// Definitions that a call only reads: destinations and right sides, or records of both. Which function is called goes by the form.
#[derive(Copy, Clone)]
pub enum Definitions<'a> {
    Numbers(&'a [u16], &'a [u64]),
    Records(&'a [Record]),
}

/// Lists that a call only reads.
#[derive(Copy, Clone)]
pub struct Lists<'a> {
    pub rows: [&'a [u64]; 4],
    pub definitions: Definitions<'a>,
}

pub enum DefinitionsMut<'a> {
    Numbers(&'a mut [u16], &'a mut [u64]),
    Records(&'a mut [Record]),
}

/// Lists that a call may fill.
pub struct ListsMut<'a> {
    pub rows: [&'a mut [u64]; 4],
    pub definitions: DefinitionsMut<'a>,
}

/// `call!(f, [in a b] [out c] [is d] ..)`: pointer and length of each slice, and numbers as they are.
macro_rules! call {
    (@ $f:expr, ($($done:expr),*),) => { unsafe { $f($($done),*) } };
    (@ $f:expr, ($($done:expr),*), [in $($slice:expr),+] $($rest:tt)*) => {
        call!(@ $f, ($($done,)* $($slice.as_ptr(), $slice.len()),+), $($rest)*)
    };
    (@ $f:expr, ($($done:expr),*), [out $($slice:expr),+] $($rest:tt)*) => {
        call!(@ $f, ($($done,)* $($slice.as_mut_ptr(), $slice.len()),+), $($rest)*)
    };
    (@ $f:expr, ($($done:expr),*), [is $($number:expr),+] $($rest:tt)*) => {
        call!(@ $f, ($($done,)* $($number),+), $($rest)*)
    };
    ($f:expr, $($rest:tt)*) => { call!(@ $f, (), $($rest)*) };
}

/// What a call left, to be spoilt by a test. Names that are not given are empty.
macro_rules! left {
    ($library:expr, $of:expr, $refusal:ident, [$($numbers:expr),*] $(, $name:ident: $value:expr)*) => {
        if let Some(spoil) = $library.spoil {
            let empty = Answer {
                of: $of,
                refusal: &mut $refusal,
                numbers: &mut [$($numbers),*],
                dsts: &mut [],
                records: &mut [],
                bytes: &mut [],
            };
            #[allow(clippy::needless_update)]
            spoil(Answer { $($name: $value,)* ..empty });
        }
    };
}

// Safe: each call hands over pointer and length of one slice, and a mutable one only of a slice that is borrowed for the call alone.
impl Library {
    fn over_records(&self) -> &OverRecords {
        self.over_records.as_ref().expect("the form over records is linked where records are lent")
    }

    pub fn compose(&self, inner: u64, outer: u64, values: &mut [u64]) -> Refusal {
        let mut refusal = call!((self.compose), [is inner, outer] [out values]);
        left!(self, "compose", refusal, [values]);
        refusal
    }

    pub fn push_inner(&self, inner: u64, outer: u64, shift: u64, slots: u64, values: &mut [u64]) -> Refusal {
        let mut refusal = call!((self.push_inner), [is inner, outer, shift, slots] [out values]);
        left!(self, "push_inner", refusal, [values]);
        refusal
    }

    pub fn read(&self, input: &[u8], terms: &mut [u64], lists: ListsMut<'_>, values: &mut [u64]) -> Refusal {
        let ListsMut { rows: [ands, imuls, bmuls, zeros], definitions } = lists;
        match definitions {
            DefinitionsMut::Numbers(dsts, rhss) => {
                let mut refusal =
                    call!((self.read), [in input] [out terms, ands, imuls, bmuls, zeros, dsts, rhss, values]);
                left!(self, "read", refusal, [terms, ands, imuls, bmuls, zeros, rhss, values], dsts: dsts);
                refusal
            }
            DefinitionsMut::Records(records) => {
                let read = self.over_records().read;
                let mut refusal = call!(read, [in input] [out terms, ands, imuls, bmuls, zeros, records, values]);
                left!(self, "read", refusal, [terms, ands, imuls, bmuls, zeros, values], records: records);
                refusal
            }
        }
    }

    #[allow(clippy::too_many_arguments)]
    pub fn fuse(
        &self,
        old: &[u64],
        new: &mut [u64],
        lists: ListsMut<'_>,
        flags: &mut [u8],
        sizes: Sizes,
        slots: u64,
        values: &mut [u64],
    ) -> Refusal {
        let ListsMut { rows: [ands, imuls, bmuls, zeros], definitions } = lists;
        let Sizes { wires, counts: [a, i, b, z, l] } = sizes;
        match definitions {
            DefinitionsMut::Numbers(dsts, rhss) => {
                let mut refusal = call!((self.fuse), [in old]
                    [out new, ands, imuls, bmuls, zeros, dsts, rhss, flags] [is wires, a, i, b, z, l, slots]
                    [out values]);
                left!(self, "fuse", refusal, [new, ands, imuls, bmuls, zeros, rhss, values], dsts: dsts, bytes: flags);
                refusal
            }
            DefinitionsMut::Records(records) => {
                let fuse = self.over_records().fuse;
                let mut refusal = call!(fuse, [in old] [out new, ands, imuls, bmuls, zeros, records, flags]
                    [is wires, a, i, b, z, l, slots] [out values]);
                left!(self, "fuse", refusal, [new, ands, imuls, bmuls, zeros, values], records: records, bytes: flags);
                refusal
            }
        }
    }

    pub fn write(
        &self,
        old: &[u64],
        new: &[u64],
        lists: Lists<'_>,
        sizes: Sizes,
        out: &mut [u8],
        values: &mut [u64],
    ) -> Refusal {
        let Lists { rows: [ands, imuls, bmuls, zeros], definitions } = lists;
        let Sizes { wires, counts: [a, i, b, z, l] } = sizes;
        let mut refusal = match definitions {
            Definitions::Numbers(dsts, rhss) => {
                call!((self.write), [in old, new, ands, imuls, bmuls, zeros, dsts, rhss]
                [is wires, a, i, b, z, l] [out out, values])
            }
            Definitions::Records(records) => {
                let write = self.over_records().write;
                call!(write, [in old, new, ands, imuls, bmuls, zeros, records] [is wires, a, i, b, z, l]
                    [out out, values])
            }
        };
        left!(self, "write", refusal, [values], bytes: out);
        refusal
    }

    #[allow(clippy::too_many_arguments)]
    pub fn evaluate(
        &self,
        old: &[u64],
        new: &[u64],
        lists: Lists<'_>,
        sizes: Sizes,
        assignment: &[u64],
        out: &mut [u64],
        values: &mut [u64],
    ) -> Refusal {
        let Lists { rows: [ands, imuls, bmuls, zeros], definitions } = lists;
        let Sizes { wires, counts: [a, i, b, z, l] } = sizes;
        let mut refusal = match definitions {
            Definitions::Numbers(dsts, rhss) => call!((self.evaluate),
                [in old, new, ands, imuls, bmuls, zeros, dsts, rhss] [is wires, a, i, b, z, l] [in assignment]
                [out out, values]),
            Definitions::Records(records) => {
                let evaluate = self.over_records().evaluate;
                call!(evaluate, [in old, new, ands, imuls, bmuls, zeros, records] [is wires, a, i, b, z, l]
                    [in assignment] [out out, values])
            }
        };
        left!(self, "evaluate", refusal, [out, values]);
        refusal
    }

    pub fn fill_back(
        &self,
        old: &[u64],
        lists: Lists<'_>,
        sizes: Sizes,
        flags: &[u8],
        assignment: &mut [u64],
    ) -> Refusal {
        let Lists { rows: [ands, imuls, bmuls, zeros], definitions } = lists;
        let Sizes { wires, counts: [a, i, b, z, l] } = sizes;
        let mut refusal = match definitions {
            Definitions::Numbers(dsts, rhss) => call!((self.fill_back), [in old, ands, imuls, bmuls, zeros, dsts, rhss]
                [is wires, a, i, b, z, l] [in flags] [out assignment]),
            Definitions::Records(records) => {
                let fill_back = self.over_records().fill_back;
                call!(fill_back, [in old, ands, imuls, bmuls, zeros, records] [is wires, a, i, b, z, l] [in flags]
                    [out assignment])
            }
        };
        left!(self, "fill_back", refusal, [assignment]);
        refusal
    }
}
