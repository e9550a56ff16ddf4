//! Stand-in for the crate around lower/ and pass/fusion/, whose five files are brought in unchanged.

// The unchanged files have functions that nothing here calls, and name a private type in a public field.
#![allow(dead_code, private_interfaces, unused_imports)]

pub mod ir {
    use cranelift_entity::entity_impl;

    #[derive(Copy, Clone, Debug, Hash, PartialEq, Eq, PartialOrd, Ord)]
    pub struct Wire(pub u32);
    entity_impl!(Wire);
}

include!(concat!(env!("OUT_DIR"), "/lower.in"));

pub mod pass {
    pub mod fusion {
        pub use legraph::LeGraph;

        /// Taken from 01, and so not compared: the file that says it is missing.
        pub const LOWERED_SHIFT_SLOTS: usize = 2;

        include!(concat!(env!("OUT_DIR"), "/legraph.in"));
        include!(concat!(env!("OUT_DIR"), "/commit_set.in"));
        include!(concat!(env!("OUT_DIR"), "/patch.in"));

        /// Whether petgraph finds a circle in the graph, whose kinds of node only this module may name.
        pub fn is_cyclic(graph: &LeGraph) -> bool {
            petgraph::algo::is_cyclic_directed(&graph.pg)
        }
    }
}

/// How many terms the builder's store has: only its own crate may ask.
pub fn terms_stored(builder: &lower::ConstraintBuilder) -> usize {
    builder.next_term_start()
}
