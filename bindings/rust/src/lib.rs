//! Gate fusion, between the circuit builder and the prover.
//!
//! A circuit builder leaves a definition for every xor of shifted wires, and each defined wire would cost the prover a committed word. Fusing
//! puts definitions in the place of the wires that they define, as far as the prover's one or two shifts a term allow, and commits the rest.
//! After the proof the words of the wires that went are filled back from their definitions.
//!
//! ```text
//! circuit builder --> System --fuse--> Fused: patched lists, kept wires --> prover
//!                                        |
//!                         words of the kept wires --fill_back--> words of all wires
//! ```
//!
//! The work is done by a library that is proved: every input gets an answer, a bad one exactly its [`Refusal`]; the lists are those of the rules,
//! term by term; and filling back gives every removed wire the word of its definition. What is proved is the library. This crate only hands
//! slices over, and its types leave little to refuse.
//!
//! ```
//! use tiwzerand::{And, Builder, Shift, Slots, Variant};
//!
//! let mut b = Builder::new();
//! let [x, y, z, d] = b.wires();
//! b.define(d, &[x.shifted(Shift::new(Variant::Slr, 2)?), y.term()]);
//! b.and(And { a: &[d.shifted(Shift::new(Variant::Sll, 1)?)], b: &[y.term()], c: &[z.term()] });
//!
//! let fused = b.build()?.fuse(Slots::Two).map_err(|(_, refusal)| refusal)?;
//! assert_eq!(fused.lists().ands().next().unwrap().a.to_string(), "(0, [slr 2, sll 1]) ^ (1, sll 1)");
//! assert_eq!(fused.kept().collect::<Vec<_>>(), [x, y, z]);
//!
//! let mut words = fused.before().assignment();
//! (words[x], words[y], words[z]) = (0xf0, 3, 2);
//! fused.fill_back(&mut words)?;
//! assert_eq!(words[d], 0xf0 / 4 ^ 3);
//! # Ok::<(), tiwzerand::Refusal>(())
//! ```
#![deny(unsafe_code)]
#![warn(missing_docs)]

mod ffi;
mod fused;
mod lists;
mod refusal;
mod shift;
mod system;
mod term;

pub use fused::{Counts, Fused, Slots};
pub use lists::{And, Assignment, Bmul, Imul, Linear, Lists, Operand, Values, Zero};
pub use refusal::{Fault, Refusal};
pub use shift::{compose, push_inner, Composition, Pushed, Shift, Variant};
pub use system::{Builder, System};
pub use term::{Term, Wire};
