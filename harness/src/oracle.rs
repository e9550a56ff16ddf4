//! Drives the unchanged Rust: a system goes into its builder, through its graph, decision and patches, and its lists come back.

use std::{
    cell::Cell,
    collections::HashMap,
    panic::{AssertUnwindSafe, catch_unwind},
};

use binius_core::constraint_system::Shift;
use binius_frontend::{
    ir::Wire,
    lower::{
        ConstraintBuilder, PushInner, ShiftedWire, WireAndConstraint, WireBmulConstraint, WireImulConstraint,
        WireLinearConstraint, WireOperand, WireZeroConstraint, push_inner,
    },
    pass::fusion::{LOWERED_SHIFT_SLOTS, LeGraph, commit_set::run_decide_commit_set, is_cyclic, patch},
    terms_stored,
};

use crate::{
    checks::check,
    house::ROOM,
    outcome::{Fused, Outcome},
    system::{AND, BMUL, Definition, IMUL, MAX_WRITTEN, Operand, System, Term, ZERO},
};

thread_local! {
    /// Whether a panic is the Rust's, and so an answer.
    static IN_RUST: Cell<bool> = const { Cell::new(false) };
}

/// Lets only those panics be told that are not the Rust's.
pub fn silence_rust() {
    let tell = std::panic::take_hook();
    std::panic::set_hook(Box::new(move |info| {
        if !IN_RUST.get() {
            tell(info);
        }
    }));
}

fn caught<T>(run: impl FnOnce() -> T) -> std::thread::Result<T> {
    IN_RUST.set(true);
    let result = catch_unwind(AssertUnwindSafe(run));
    IN_RUST.set(false);
    result
}

/// The most terms that the Rust's expansion is let look at.
pub const MOST_STEPS: u64 = 4_000_000;

/// Fuses by the Rust. What the Rust has no number for is refused as 01 says, before it or after it.
pub fn fuse(system: &System, slots: usize, room: usize) -> Outcome {
    if let Err(refusal) = check(system, slots) {
        return Outcome::Refused(refusal);
    }
    let run = caught(|| fuse_checked(system, slots, room));
    run.unwrap_or_else(|panic| Outcome::Panicked(message_of(panic.as_ref())))
}

/// Whether graph and decision panic, for systems that 01 refuses.
pub fn decision_panics(system: &System, slots: usize) -> bool {
    let decision = || {
        let builder = builder_of(system);
        run_decide_commit_set(&mut LeGraph::new(&builder), slots);
    };
    caught(decision).is_err()
}

/// Whether petgraph finds a circle in the Rust's graph.
pub fn graph_is_cyclic(system: &System) -> bool {
    is_cyclic(&LeGraph::new(&builder_of(system)))
}

fn message_of(panic: &(dyn std::any::Any + Send)) -> String {
    let text = panic.downcast_ref::<String>().cloned();
    text.or_else(|| panic.downcast_ref::<&str>().map(|text| text.to_string()))
        .unwrap_or_else(|| "without a message".into())
}

fn fuse_checked(system: &System, slots: usize, room: usize) -> Outcome {
    let mut builder = builder_of(system);
    let mut graph = LeGraph::new(&builder);
    run_decide_commit_set(&mut graph, slots);
    let cost = Cost::of(system, &graph);
    if cost.written > room.min(MAX_WRITTEN) as u64 {
        return Outcome::Refused(ROOM);
    }
    if cost.steps > MOST_STEPS {
        return Outcome::Endless { committed: committed_wires(&graph), written: cost.written as usize };
    }
    let before = terms_stored(&builder);
    let patches = patch::build(&mut builder, &graph);
    patch::apply_patches(&mut builder, patches);
    let written = terms_stored(&builder) - before;
    assert_eq!(written as u64, cost.written, "the harness foresaw another number of terms");
    Outcome::Fused(fused(system, &builder, &graph, written))
}

/// The pass as it stands in the Rust, for timing: everything between a built constraint system and the patched one.
pub fn fuse_in_place(builder: &mut ConstraintBuilder, slots: usize) {
    let mut graph = LeGraph::new(builder);
    run_decide_commit_set(&mut graph, slots);
    let patches = patch::build(builder, &graph);
    patch::apply_patches(builder, patches);
}

pub fn builder_of(system: &System) -> ConstraintBuilder {
    let mut builder = ConstraintBuilder::new();
    for constraint in &system.others[AND] {
        let [a, b, c] = operands_into(&mut builder, constraint);
        builder.and_constraints.push(WireAndConstraint { a, b, c });
    }
    for constraint in &system.others[IMUL] {
        let [a, b, hi, lo] = operands_into(&mut builder, constraint);
        builder.imul_constraints.push(WireImulConstraint { a, b, hi, lo });
    }
    for constraint in &system.others[BMUL] {
        let [a_lo, a_hi, b_lo, b_hi, c_lo, c_hi] = operands_into(&mut builder, constraint);
        let bmul = WireBmulConstraint { a_lo, a_hi, b_lo, b_hi, c_lo, c_hi };
        builder.bmul_constraints.push(bmul);
    }
    for constraint in &system.others[ZERO] {
        let [val] = operands_into(&mut builder, constraint);
        builder.zero_constraints.push(WireZeroConstraint { val });
    }
    for definition in &system.linears {
        let rhs = operand_into(&mut builder, &definition.rhs);
        let dst = Wire(definition.dst.into());
        builder.linear_constraints.push(WireLinearConstraint { rhs, dst });
    }
    builder
}

fn operands_into<const N: usize>(builder: &mut ConstraintBuilder, constraint: &[Operand]) -> [WireOperand; N] {
    std::array::from_fn(|at| operand_into(builder, &constraint[at]))
}

fn operand_into(builder: &mut ConstraintBuilder, operand: &[Term]) -> WireOperand {
    builder.push_operand(operand.iter().map(|term| ShiftedWire {
        wire: Wire(term.wire.into()),
        shift_seq: [shift_of(term.inner), shift_of(term.outer)],
    }))
}

pub fn shift_of(number: u16) -> Shift {
    Shift::from_index(number.into())
}

pub fn number_of(shift: Shift) -> u16 {
    shift.index() as u16
}

fn committed_wires(graph: &LeGraph) -> Vec<u16> {
    graph.commit_set().iter().map(|wire| wire.0 as u16).collect()
}

fn fused(system: &System, builder: &ConstraintBuilder, graph: &LeGraph, written: usize) -> Fused {
    let after = system_of(builder, system.wires);
    let committed = committed_wires(graph);
    // The Rust appends the committed definitions behind those that it left alone.
    let left_alone = &after.linears[..after.linears.len() - committed.len()];
    let mut stranded: Vec<u16> = left_alone.iter().map(|definition| definition.dst).collect();
    stranded.sort_unstable();
    let remain: Vec<u16> = after.linears.iter().map(|definition| definition.dst).collect();
    let defined = system.linears.iter().map(|definition| definition.dst);
    let mut gone: Vec<u16> = defined.filter(|dst| !remain.contains(dst)).collect();
    gone.sort_unstable();
    Fused { system: after, committed, gone, stranded, written }
}

fn system_of(builder: &ConstraintBuilder, wires: usize) -> System {
    let read = |operand: WireOperand| operand_of(builder, operand);
    let ands = builder.and_constraints.iter().map(|c| [c.a, c.b, c.c].map(read).to_vec());
    let imuls = builder.imul_constraints.iter();
    let imuls = imuls.map(|c| [c.a, c.b, c.hi, c.lo].map(read).to_vec());
    let bmuls = builder.bmul_constraints.iter();
    let bmuls = bmuls.map(|c| [c.a_lo, c.a_hi, c.b_lo, c.b_hi, c.c_lo, c.c_hi].map(read).to_vec());
    let zeros = builder.zero_constraints.iter().map(|c| vec![read(c.val)]);
    let linears = builder.linear_constraints.iter().map(|c| Definition { dst: c.dst.0 as u16, rhs: read(c.rhs) });
    System {
        wires,
        others: [ands.collect(), imuls.collect(), bmuls.collect(), zeros.collect()],
        linears: linears.collect(),
    }
}

fn operand_of(builder: &ConstraintBuilder, operand: WireOperand) -> Operand {
    let terms = builder.operand_terms(operand).iter().map(|term| Term {
        wire: term.wire.0 as u16,
        inner: number_of(term.shift_seq[0]),
        outer: number_of(term.shift_seq[1]),
    });
    terms.collect()
}

/// What the Rust's expansion would take, counted without running it: terms looked at, and terms written. Both saturate.
#[derive(Copy, Clone, Default)]
struct Cost {
    steps: u64,
    written: u64,
}

impl Cost {
    const WRITE: Self = Self { steps: 1, written: 1 };

    fn plus(self, other: Self) -> Self {
        Self { steps: self.steps.saturating_add(other.steps), written: self.written.saturating_add(other.written) }
    }

    fn of(system: &System, graph: &LeGraph) -> Self {
        let mut counting = Counting {
            system,
            definition_of: system.definition_of(),
            committed: (0..system.wires).map(|wire| graph.commit_set().contains(Wire(wire as u32))).collect(),
            known: HashMap::new(),
        };
        let others = system.others.iter().flatten();
        let rebuilt = others.filter(|constraint| counting.names_defined(constraint)).flatten();
        let definitions = system.linears.iter();
        let committed = definitions.filter(|definition| counting.committed[usize::from(definition.dst)]);
        let operands: Vec<&Operand> = rebuilt.chain(committed.map(|definition| &definition.rhs)).collect();
        let terms = operands.into_iter().flatten();
        terms.fold(Self::default(), |sum, term| {
            sum.plus(counting.term(term.wire, [shift_of(term.inner), shift_of(term.outer)]))
        })
    }
}

struct Counting<'a> {
    system: &'a System,
    definition_of: Vec<Option<usize>>,
    committed: Vec<bool>,
    known: HashMap<(usize, [Shift; 2]), Cost>,
}

impl Counting<'_> {
    fn names_defined(&self, constraint: &[Operand]) -> bool {
        let mut terms = constraint.iter().flatten();
        terms.any(|term| self.definition_of[usize::from(term.wire)].is_some())
    }

    fn term(&mut self, wire: u16, sequence: [Shift; 2]) -> Cost {
        let wire = usize::from(wire);
        let position = match self.definition_of[wire] {
            Some(position) if !self.committed[wire] => position,
            _ => return Cost::WRITE,
        };
        if let Some(&cost) = self.known.get(&(position, sequence)) {
            return cost;
        }
        let mut cost = Cost { steps: 1, written: 0 };
        for term in &self.system.linears[position].rhs {
            if let PushInner::Seq(pushed) = push_inner(sequence, shift_of(term.inner), LOWERED_SHIFT_SLOTS) {
                cost = cost.plus(self.term(term.wire, pushed));
            }
        }
        self.known.insert((position, sequence), cost);
        cost
    }
}
