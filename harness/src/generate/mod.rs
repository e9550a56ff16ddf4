//! Systems by kind and seed. Each kind aims at some branches of the decision or of expansion.

pub mod limits;
pub mod shapes;
pub mod special;
pub mod tiny;

use crate::{random::Random, system::System};

enum Make {
    Drawn(fn(&mut Random) -> System),
    /// Every seed another system, until all were there.
    Counted(fn(u64) -> System),
}

pub struct Kind {
    pub name: &'static str,
    make: Make,
    /// Systems of up to thousands of terms: run fewer of them.
    pub large: bool,
}

const fn small(name: &'static str, draw: fn(&mut Random) -> System) -> Kind {
    Kind { name, make: Make::Drawn(draw), large: false }
}

const fn large(name: &'static str, draw: fn(&mut Random) -> System) -> Kind {
    Kind { name, make: Make::Drawn(draw), large: true }
}

/// A kind's place in this list is part of its seeds: add new kinds at the end.
pub const KINDS: [Kind; 17] = [
    small("dense", shapes::dense),
    small("chain", shapes::chain),
    small("product", shapes::product),
    small("join", shapes::join),
    small("drop", shapes::drop),
    small("dead", shapes::dead),
    small("identity", shapes::identity),
    small("doubled", shapes::doubled),
    small("mixed", shapes::mixed),
    small("faulty", special::faulty),
    large("wide", shapes::wide),
    large("tower", special::tower),
    large("limit", limits::limit),
    large("room", limits::room),
    large("endless", special::endless),
    small("path", shapes::path),
    Kind { name: "tiny", make: Make::Counted(tiny::system), large: false },
];

pub fn system(kind: usize, seed: u64) -> System {
    match KINDS[kind].make {
        Make::Drawn(draw) => draw(&mut Random::of(kind as u64, seed)),
        Make::Counted(count) => count(seed),
    }
}

pub fn kind_by_name(name: &str) -> Option<usize> {
    KINDS.iter().position(|kind| kind.name == name)
}
