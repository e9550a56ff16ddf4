//! 01's "The decision": which definitions commit.

use super::shift::{amount, is_cyclic, is_identity, variant, width};
use crate::system::{System, Term};

const MAX_DEPTH: usize = 6;
const MAX_TERM_GROWTH: usize = 4;

#[derive(Clone, Debug, Default, PartialEq, Eq)]
struct Run {
    /// A bit for each variant.
    variants: u8,
    total: u16,
}

/// Runs from the outermost to the innermost, and a depth.
#[derive(Clone, Debug, Default, PartialEq, Eq)]
struct Context {
    runs: Vec<Run>,
    depth: usize,
}

impl Context {
    /// "A use in an And, Imul, Bmul or Zero has the context (its shift, depth 0)"
    fn fresh(shift: u16) -> Self {
        Self::default().plus(shift)
    }

    /// "Adding a shift to runs"
    fn plus(&self, shift: u16) -> Self {
        let mut sum = self.clone();
        if is_identity(shift) {
            return sum;
        }
        let set = 1 << variant(shift);
        if let Some(innermost) = sum.runs.last_mut() {
            let total = (innermost.total + amount(shift)).min(255);
            let stays = is_cyclic(variant(shift)) || total < width(variant(shift));
            if innermost.variants == set && stays {
                innermost.total = total;
                return sum;
            }
        }
        // "A count above 2 reads as 3."
        if sum.runs.len() < 3 {
            let total = amount(shift);
            sum.runs.push(Run { variants: set, total });
        }
        sum
    }

    /// "Joining takes the union of sets, the greatest total and the greatest count, run by run."
    fn join(&mut self, other: &Self) {
        self.depth = self.depth.max(other.depth);
        for (at, run) in other.runs.iter().enumerate() {
            if at == self.runs.len() {
                self.runs.push(Run::default());
            }
            self.runs[at].variants |= run.variants;
            self.runs[at].total = self.runs[at].total.max(run.total);
        }
    }
}

/// The three grounds on which a definition commits.
#[derive(Copy, Clone, Debug, Default, PartialEq, Eq)]
pub struct Grounds {
    pub over_slots: bool,
    pub too_deep: bool,
    pub multiplies_out: bool,
}

impl Grounds {
    pub fn any(self) -> bool {
        self.over_slots || self.too_deep || self.multiplies_out
    }
}

/// For each definition, by position, whether it commits. The system is one that `check` lets through.
pub fn decide(system: &System, slots: usize) -> Vec<bool> {
    grounds(system, slots).into_iter().map(Grounds::any).collect()
}

/// For each definition, by position, on which grounds it commits.
pub fn grounds(system: &System, slots: usize) -> Vec<Grounds> {
    let mut walk = Walk::new(system);
    let mut grounds = vec![Grounds::default(); system.linears.len()];
    while let Some(position) = walk.ready.pop() {
        let uses = std::mem::take(&mut walk.uses[position]);
        let terms = &system.linears[position].rhs;
        grounds[position] = grounds_of(&uses, terms, slots);
        let above = if grounds[position].any() { None } else { Some(joined(&uses)) };
        for term in terms {
            walk.note_decided_use(term.wire, below(above.as_ref(), term.inner));
        }
    }
    grounds
}

/// Definitions become ready once all their uses have a context.
struct Walk {
    definition_of: Vec<Option<usize>>,
    uses: Vec<Vec<Context>>,
    missing: Vec<usize>,
    ready: Vec<usize>,
}

impl Walk {
    fn new(system: &System) -> Self {
        let count = system.linears.len();
        let mut walk = Self {
            definition_of: system.definition_of(),
            uses: vec![Vec::new(); count],
            missing: vec![0; count],
            ready: Vec::new(),
        };
        for term in system.linears.iter().flat_map(|definition| &definition.rhs) {
            if let Some(used) = walk.definition_of[usize::from(term.wire)] {
                walk.missing[used] += 1;
            }
        }
        walk.ready = (0..count).filter(|&at| walk.missing[at] == 0).collect();
        for term in system.others.iter().flatten().flatten().flatten() {
            if let Some(used) = walk.definition_of[usize::from(term.wire)] {
                walk.uses[used].push(Context::fresh(term.inner));
            }
        }
        walk
    }

    fn note_decided_use(&mut self, wire: u16, context: Context) {
        let Some(used) = self.definition_of[usize::from(wire)] else {
            return;
        };
        self.uses[used].push(context);
        self.missing[used] -= 1;
        if self.missing[used] == 0 {
            self.ready.push(used);
        }
    }
}

fn grounds_of(uses: &[Context], terms: &[Term], slots: usize) -> Grounds {
    let greatest = greatest_run_count(uses, terms);
    let depth = uses.iter().map(|context| context.depth).max().unwrap_or(0);
    let growth = terms.len().saturating_sub(1) * uses.len().saturating_sub(1);
    Grounds {
        over_slots: greatest > slots,
        too_deep: depth > MAX_DEPTH && terms.len() != 1,
        multiplies_out: greatest > 1 && growth > MAX_TERM_GROWTH,
    }
}

/// Over all sums of a use's context and a term's shift. Equal contexts and equal shifts have equal sums, so each is looked at once.
fn greatest_run_count(uses: &[Context], terms: &[Term]) -> usize {
    let mut shifts: Vec<u16> = terms.iter().map(|term| term.inner).collect();
    shifts.sort_unstable();
    shifts.dedup();
    let sums = uses.iter().flat_map(|context| shifts.iter().map(|&shift| context.plus(shift)));
    sums.map(|sum| sum.runs.len()).max().unwrap_or(0)
}

fn joined(uses: &[Context]) -> Context {
    let mut joined = Context::default();
    for context in uses {
        joined.join(context);
    }
    joined
}

/// The context of one term of a decided definition: afresh below a committed one, else below all uses of the definition.
fn below(above: Option<&Context>, shift: u16) -> Context {
    let Some(above) = above else {
        return Context::fresh(shift);
    };
    let mut context = above.plus(shift);
    context.depth += 1;
    context
}
