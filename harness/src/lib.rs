//! Differential runs of the gate-fusion pass: the unchanged Rust of binius64 beside an implementation of 01's rules written apart.
//!
//! 01 is the paper of scope and rules that this project is built from.

pub mod bench;
pub mod checks;
pub mod circuits;
pub mod clock;
pub mod compare;
pub mod damage;
pub mod evaluate;
pub mod examples;
pub mod generate;
pub mod house;
pub mod lent;
pub mod library;
pub mod memory;
pub mod oracle;
pub mod ours;
pub mod outcome;
pub mod random;
pub mod replay;
pub mod rules;
pub mod second_reader;
pub mod shifts;
pub mod slow;
pub mod stores;
pub mod system;
pub mod third;
pub mod vectors;
