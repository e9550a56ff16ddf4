//! The project's own side: systems laid into lent stores, calls of the library, and what is read back.
//!
//! Each call also looks at every store: a refusal fills nothing, and what an answer does not fill stays as it was.

use std::cell::RefCell;

use crate::{
    house::{Fault, Refusal},
    lent::Lent,
    library::{self, Definitions, DefinitionsMut, Library, Lists, ListsMut, Record, Sizes},
    outcome::{Fused, Outcome},
    system::{
        Definition, KINDS, MAX_DEFINITIONS, MAX_OTHERS, MAX_TERMS, MAX_WIRES, NAMES, OPERANDS, Operand, System, Term,
    },
};

/// The bit of an operand's number that says that its terms stand in the new store.
pub const NEW_STORE: u64 = 1 << 63;

/// A system as it stands in stores.
#[derive(Clone, Debug, Default, PartialEq, Eq)]
pub struct Image {
    pub sizes: Sizes,
    pub old: Vec<u64>,
    pub new: Vec<u64>,
    pub rows: [Vec<u64>; KINDS],
    pub dsts: Vec<u16>,
    pub rhss: Vec<u64>,
}

pub fn term_number(term: &Term) -> u64 {
    u64::from(term.wire) | u64::from(term.inner) << 16 | u64::from(term.outer) << 32
}

pub fn operand_number(start: usize, len: usize) -> u64 {
    len as u64 | (start as u64) << 32
}

impl Image {
    pub fn of(system: &System) -> Self {
        let mut image = Self::default();
        image.set(system);
        image
    }

    /// Terms one after another, in tag order.
    pub fn set(&mut self, system: &System) {
        self.old.clear();
        self.new.clear();
        self.dsts.clear();
        self.rhss.clear();
        self.sizes.wires = system.wires;
        for kind in 0..KINDS {
            self.rows[kind].clear();
            self.sizes.counts[kind] = system.others[kind].len();
            for operand in system.others[kind].iter().flatten() {
                self.rows[kind].push(put(&mut self.old, operand));
            }
        }
        self.sizes.counts[KINDS] = system.linears.len();
        for definition in &system.linears {
            self.dsts.push(definition.dst);
            self.rhss.push(put(&mut self.old, &definition.rhs));
        }
    }

    pub fn lists(&self) -> Lists<'_> {
        self.lists_with(Definitions::Numbers(&self.dsts, &self.rhss))
    }

    fn lists_with<'a>(&'a self, definitions: Definitions<'a>) -> Lists<'a> {
        Lists { rows: self.rows.each_ref().map(Vec::as_slice), definitions }
    }

    /// The definitions as records; as many as both lists have.
    fn records(&self) -> impl Iterator<Item = Record> {
        self.dsts.iter().zip(&self.rhss).map(|(&dst, &rhs)| Record { rhs, dst })
    }
}

fn put(store: &mut Vec<u64>, operand: &[Term]) -> u64 {
    let start = store.len();
    store.extend(operand.iter().map(term_number));
    operand_number(start, operand.len())
}

/// The system that stands in stores, or why none does.
pub fn system_of(old: &[u64], new: &[u64], lists: Lists<'_>, sizes: Sizes) -> Result<System, String> {
    let mut system = System::new(sizes.wires);
    for kind in 0..KINDS {
        let rows = lists.rows[kind].chunks(OPERANDS[kind]).take(sizes.counts[kind]);
        let rows = rows.map(|row| row.iter().map(|&number| operand_of(old, new, number)).collect());
        system.others[kind] = rows.collect::<Result<_, _>>()?;
    }
    let define = |dst, rhs| Ok(Definition { dst, rhs: operand_of(old, new, rhs)? });
    let count = sizes.counts[KINDS];
    let definitions: Result<_, String> = match lists.definitions {
        Definitions::Numbers(dsts, rhss) => {
            dsts.iter().zip(rhss).take(count).map(|(&dst, &rhs)| define(dst, rhs)).collect()
        }
        Definitions::Records(records) => records.iter().take(count).map(|of| define(of.dst, of.rhs)).collect(),
    };
    system.linears = definitions?;
    Ok(system)
}

fn operand_of(old: &[u64], new: &[u64], number: u64) -> Result<Operand, String> {
    let store = if number & NEW_STORE == 0 { old } else { new };
    let (start, len) = ((number >> 32 & 0x7FFF_FFFF) as usize, number as u32 as usize);
    let terms = store.get(start..start + len).ok_or_else(|| format!("operand {number:#x} ends past its store"))?;
    terms.iter().map(|&term| term_of(term)).collect()
}

fn term_of(number: u64) -> Result<Term, String> {
    let outer = u16::try_from(number >> 32).map_err(|_| format!("term {number:#x} is none"))?;
    Ok(Term::new(number as u16, (number >> 16) as u16, outer))
}

/// How long lent stores are.
#[derive(Copy, Clone, Debug, PartialEq, Eq)]
pub enum Length {
    /// As long as they need to be.
    Exact,
    Longer(usize),
    /// As long as any system needs them.
    Full,
}

impl Length {
    pub fn of(self, need: usize, most: usize) -> usize {
        match self {
            Self::Exact => need,
            Self::Longer(by) => need + by,
            Self::Full => need.max(most),
        }
    }

    /// By seed: mostly exact or a little longer.
    pub fn by_seed(seed: u64) -> Self {
        match seed % 64 {
            63 => Self::Full,
            turn if turn % 2 == 0 => Self::Exact,
            turn => Self::Longer(1 + turn as usize / 8),
        }
    }
}

/// An answer that gives nothing.
#[derive(Clone, Debug, PartialEq, Eq)]
pub enum Not {
    Refused(Refusal),
    /// Reading's, with its offset.
    Unread(Fault),
    /// A store is not as it has to be after this call.
    Spoilt(String),
}

/// What a call gives.
pub type Given<T> = Result<T, Not>;

fn spoilt<T>(what: impl Into<String>) -> Given<T> {
    Err(Not::Spoilt(what.into()))
}

fn spoilt_if(spoilt: bool, what: impl FnOnce() -> String) -> Given<()> {
    if spoilt { Err(Not::Spoilt(what())) } else { Ok(()) }
}

/// Calls of each function.
#[derive(Copy, Clone, Debug, Default, PartialEq, Eq)]
pub struct Calls {
    pub reads: u64,
    pub fuses: u64,
    pub writes: u64,
    pub evaluations: u64,
    pub fill_backs: u64,
}

impl Calls {
    pub fn add(&mut self, other: &Self) {
        self.reads += other.reads;
        self.fuses += other.fuses;
        self.writes += other.writes;
        self.evaluations += other.evaluations;
        self.fill_backs += other.fill_backs;
    }
}

/// How definitions stand in memory.
#[derive(Copy, Clone, Debug, Default, PartialEq, Eq)]
pub enum Form {
    #[default]
    Numbers,
    Records,
}

/// The stores of the five lists: those of the form are lent.
#[derive(Default)]
struct LentLists {
    form: Form,
    rows: [Lent<u64>; KINDS],
    dsts: Lent<u16>,
    rhss: Lent<u64>,
    records: Lent<Record>,
    /// What the records were laid over.
    front: Vec<Record>,
}

impl LentLists {
    fn lay(&mut self, image: &Image, length: Length) {
        for kind in 0..KINDS {
            let len = length.of(image.rows[kind].len(), MAX_OTHERS * OPERANDS[kind]);
            self.rows[kind].lay(&image.rows[kind], len);
        }
        let [dsts, rhss] = [image.dsts.len(), image.rhss.len()].map(|need| length.of(need, MAX_DEFINITIONS));
        self.lay_definitions(image, dsts, rhss);
    }

    /// Blank, in so much room.
    fn lay_room(&mut self, none: &Image, room: &Room) {
        for kind in 0..KINDS {
            self.rows[kind].lay(&[], room.rows[kind]);
        }
        self.lay_definitions(none, room.dsts, room.rhss);
    }

    fn lay_definitions(&mut self, image: &Image, dsts: usize, rhss: usize) {
        match self.form {
            Form::Numbers => {
                self.dsts.lay(&image.dsts, dsts);
                self.rhss.lay(&image.rhss, rhss);
            }
            Form::Records => {
                self.front.clear();
                self.front.extend(image.records());
                self.records.lay(&self.front, dsts.min(rhss));
            }
        }
    }

    fn cells(&self) -> Lists<'_> {
        let definitions = match self.form {
            Form::Numbers => Definitions::Numbers(self.dsts.cells(), self.rhss.cells()),
            Form::Records => Definitions::Records(self.records.cells()),
        };
        Lists { rows: self.rows.each_ref().map(Lent::cells), definitions }
    }

    fn cells_mut(&mut self) -> ListsMut<'_> {
        let definitions = match self.form {
            Form::Numbers => DefinitionsMut::Numbers(self.dsts.cells_mut(), self.rhss.cells_mut()),
            Form::Records => DefinitionsMut::Records(self.records.cells_mut()),
        };
        ListsMut { rows: self.rows.each_mut().map(Lent::cells_mut), definitions }
    }

    /// The first list that is not as it was laid from these counts on.
    fn changed(&self, image: &Image, from: [usize; 5]) -> Option<&'static str> {
        let row = (0..KINDS).find(|&kind| !self.rows[kind].keeps(&image.rows[kind], from[kind] * OPERANDS[kind]));
        let definition = || {
            let kept = match self.form {
                Form::Numbers => self.dsts.keeps(&image.dsts, from[KINDS]) && self.rhss.keeps(&image.rhss, from[KINDS]),
                Form::Records => self.records.keeps(&self.front, from[KINDS]),
            };
            (!kept).then_some("linear")
        };
        row.map(|kind| NAMES[kind]).or_else(definition)
    }
}

/// Cells that reading is lent for terms, rows and definitions.
#[derive(Copy, Clone, Debug, PartialEq, Eq)]
pub struct Room {
    pub terms: usize,
    pub rows: [usize; KINDS],
    pub dsts: usize,
    pub rhss: usize,
}

impl Room {
    /// What a system takes.
    pub fn of(system: &System, length: Length) -> Self {
        let linears = length.of(system.linears.len(), MAX_DEFINITIONS);
        Self {
            terms: length.of(system.term_count(), MAX_TERMS),
            rows: std::array::from_fn(|kind| {
                length.of(system.others[kind].len() * OPERANDS[kind], MAX_OTHERS * OPERANDS[kind])
            }),
            dsts: linears,
            rhss: linears,
        }
    }

    /// Whether it is enough for a system.
    pub fn holds(&self, system: &System) -> bool {
        let need = Self::of(system, Length::Exact);
        let rows = self.rows.iter().zip(need.rows).all(|(lent, need)| *lent >= need);
        rows && self.terms >= need.terms && self.dsts >= need.dsts && self.rhss >= need.rhss
    }

    /// The same with one store, by turns, a cell shorter if it has one.
    pub fn one_short(mut self, turn: u64) -> Self {
        let [ands, imuls, bmuls, zeros] = &mut self.rows;
        let cells = [&mut self.terms, ands, imuls, bmuls, zeros, &mut self.dsts, &mut self.rhss];
        let at = turn as usize % cells.len();
        *cells[at] = cells[at].saturating_sub(1);
        self
    }
}

/// The library, and stores to lend to it.
pub struct Ours {
    library: Library,
    pub calls: Calls,
    none: Image,
    old: Lent<u64>,
    new: Lent<u64>,
    lists: LentLists,
    flags: Lent<u8>,
    bytes: Lent<u8>,
    words: Lent<u64>,
    out: Lent<u64>,
    values: Lent<u64>,
    /// Records that are only read.
    front: Vec<Record>,
    /// How much of the lists counts after the last call that filled them.
    after: Sizes,
}

/// An image's definitions in a form.
fn definitions_of<'a>(image: &'a Image, form: Form, front: &'a mut Vec<Record>) -> Definitions<'a> {
    if form == Form::Numbers {
        return Definitions::Numbers(&image.dsts, &image.rhss);
    }
    front.clear();
    front.extend(image.records());
    Definitions::Records(front)
}

/// Where a system is taken from that is written or evaluated.
#[derive(Copy, Clone)]
pub enum Source<'a> {
    Image(&'a Image),
    /// The stores as fusing left them.
    Fused,
}

impl Ours {
    /// The library over destinations and right sides, and over records where it has that form.
    pub fn forms(library: &Library) -> Vec<Self> {
        let records = library.over_records.map(|_| Form::Records);
        [Some(Form::Numbers), records].into_iter().flatten().map(|form| Self::new(library, form)).collect()
    }

    /// The library that is linked, in its forms; none without the feature `ours`.
    pub fn linked() -> Vec<Self> {
        library::linked().map_or(Vec::new(), Self::forms)
    }

    pub fn new(library: &Library, form: Form) -> Self {
        Self {
            library: *library,
            calls: Calls::default(),
            none: Image::default(),
            old: Lent::default(),
            new: Lent::default(),
            lists: LentLists { form, ..LentLists::default() },
            flags: Lent::default(),
            bytes: Lent::default(),
            words: Lent::default(),
            out: Lent::default(),
            values: Lent::default(),
            front: Vec::new(),
            after: Sizes::default(),
        }
    }

    pub fn form(&self) -> Form {
        self.lists.form
    }

    /// Reads a file into stores of so many cells.
    pub fn read(&mut self, bytes: &[u8], room: &Room, values: usize) -> Given<System> {
        self.calls.reads += 1;
        self.old.lay(&[], room.terms);
        self.lists.lay_room(&self.none, room);
        self.values.lay(&[], values.max(7));
        let lists = self.lists.cells_mut();
        let refusal = self.library.read(bytes, self.old.cells_mut(), lists, self.values.cells_mut());
        if refusal != 0 {
            let kept = self.old.keeps(&[], 0) && self.values.keeps(&[], 1);
            let changed = self.lists.changed(&self.none, [0; 5]);
            spoilt_if(!kept || changed.is_some(), || format!("refusal {refusal} of reading filled a store"))?;
            return Err(Not::Unread(Fault { refusal, offset: self.values.cells()[0] as usize }));
        }
        let told: [u64; 7] = self.values.cells()[..7].try_into().expect("seven are lent");
        let [wires, ands, imuls, bmuls, zeros, linears, terms] = told.map(|value| value as usize);
        self.after = Sizes { wires, counts: [ands, imuls, bmuls, zeros, linears] };
        let kept = self.old.keeps(&[], terms) && self.values.keeps(&[], 7);
        let changed = self.lists.changed(&self.none, self.after.counts);
        spoilt_if(!kept || changed.is_some(), || "reading filled more than its answer".into())?;
        let system = system_of(self.old.cells(), &[], self.lists.cells(), self.after).map_err(Not::Spoilt)?;
        spoilt_if(system.term_count() != terms, || format!("told {terms} terms"))?;
        Ok(system)
    }

    /// Fuses an image with new terms in a store of `room`, and so many flags.
    pub fn fuse(&mut self, image: &Image, slots: u64, room: usize, flags: usize, length: Length) -> Given<Fused> {
        self.lay_fuse(image, room, flags, length, length.of(5, 8));
        let refusal = self.call_fuse(image, slots);
        self.fused(image, refusal)
    }

    pub fn lay_fuse(&mut self, image: &Image, room: usize, flags: usize, length: Length, values: usize) {
        self.old.lay(&image.old, length.of(image.old.len(), MAX_TERMS));
        self.new.lay(&[], room);
        self.lists.lay(image, length);
        self.flags.lay(&[], flags);
        self.values.lay(&[], values);
    }

    pub fn call_fuse(&mut self, image: &Image, slots: u64) -> Refusal {
        self.calls.fuses += 1;
        self.library.fuse(
            self.old.cells(),
            self.new.cells_mut(),
            self.lists.cells_mut(),
            self.flags.cells_mut(),
            image.sizes,
            slots,
            self.values.cells_mut(),
        )
    }

    /// What fusing left in the stores.
    pub fn fused(&mut self, image: &Image, refusal: Refusal) -> Given<Fused> {
        spoilt_if(!self.old.keeps(&image.old, 0), || "fusing wrote to the old terms".into())?;
        if refusal != 0 {
            let kept = self.new.keeps(&[], 0) && self.flags.keeps(&[], 0) && self.values.keeps(&[], 0);
            let changed = self.lists.changed(image, [0; 5]);
            spoilt_if(!kept || changed.is_some(), || format!("refusal {refusal} of fusing filled a store"))?;
            return Err(Not::Refused(refusal));
        }
        let told: [u64; 5] = self.values.cells()[..5].try_into().expect("five are lent");
        let [_, stranded, committed, written, _] = told.map(|value| value as usize);
        let wires = image.sizes.wires;
        self.after = image.sizes;
        self.after.counts[KINDS] = stranded.saturating_add(committed);
        let kept = self.new.keeps(&[], written) && self.flags.keeps(&[], wires) && self.values.keeps(&[], 5);
        let changed = self.lists.changed(image, self.after.counts);
        spoilt_if(!kept || changed.is_some(), || format!("fusing filled more than its answer, {changed:?}"))?;
        let system = system_of(self.old.cells(), self.new.cells(), self.lists.cells(), self.after);
        let fused = self.fused_of(image, system.map_err(Not::Spoilt)?, written)?;
        let counted = [fused.gone.len(), fused.stranded.len(), fused.committed.len(), written, fused.kept()];
        let equal = counted.map(|count| count as u64) == told;
        spoilt_if(!equal, || format!("told {told:?} where the stores have {counted:?}"))?;
        Ok(fused)
    }

    /// Which wires are committed by the flags, and which definitions are still there.
    fn fused_of(&self, image: &Image, system: System, written: usize) -> Given<Fused> {
        let flags = &self.flags.cells()[..image.sizes.wires];
        spoilt_if(flags.iter().any(|&flag| flag > 1), || "a flag is neither 0 nor 1".into())?;
        let mut left = vec![false; image.sizes.wires];
        for definition in &system.linears {
            match left.get_mut(usize::from(definition.dst)) {
                Some(left) => *left = true,
                None => return spoilt("a definition of no wire"),
            }
        }
        let wires_of = |chosen: &dyn Fn(usize) -> bool| {
            let defined = image.dsts.iter().copied().take(image.sizes.counts[KINDS]);
            let mut wires: Vec<u16> = defined.filter(|&wire| chosen(usize::from(wire))).collect();
            wires.sort_unstable();
            wires
        };
        Ok(Fused {
            committed: (0..image.sizes.wires).filter(|&wire| flags[wire] == 1).map(|wire| wire as u16).collect(),
            gone: wires_of(&|wire| !left[wire]),
            stranded: wires_of(&|wire| left[wire] && flags[wire] == 0),
            written,
            system,
        })
    }

    /// Writes a system to a store of so many bytes.
    pub fn write(&mut self, source: Source<'_>, room: usize, values: usize) -> Given<&[u8]> {
        self.calls.writes += 1;
        self.bytes.lay(&[], room);
        self.values.lay(&[], values.max(1));
        let (old, new, lists, sizes) = match source {
            Source::Image(image) => {
                let definitions = definitions_of(image, self.lists.form, &mut self.front);
                (image.old.as_slice(), image.new.as_slice(), image.lists_with(definitions), image.sizes)
            }
            Source::Fused => (self.old.cells(), self.new.cells(), self.lists.cells(), self.after),
        };
        let refusal = self.library.write(old, new, lists, sizes, self.bytes.cells_mut(), self.values.cells_mut());
        if refusal != 0 {
            let kept = self.bytes.keeps(&[], 0) && self.values.keeps(&[], 0);
            spoilt_if(!kept, || format!("refusal {refusal} of writing filled a store"))?;
            return Err(Not::Refused(refusal));
        }
        let length = self.values.cells()[0] as usize;
        let kept = self.bytes.keeps(&[], length) && self.values.keeps(&[], 1) && length <= room;
        spoilt_if(!kept, || "writing filled more than its answer".into())?;
        Ok(&self.bytes.cells()[..length])
    }

    /// Evaluates a system's operands to a store of so many words.
    pub fn evaluate(&mut self, source: Source<'_>, words: &[u64], room: usize, values: usize) -> Given<&[u64]> {
        self.calls.evaluations += 1;
        self.out.lay(&[], room);
        self.values.lay(&[], values.max(1));
        let (old, new, lists, sizes) = match source {
            Source::Image(image) => {
                let definitions = definitions_of(image, self.lists.form, &mut self.front);
                (image.old.as_slice(), image.new.as_slice(), image.lists_with(definitions), image.sizes)
            }
            Source::Fused => (self.old.cells(), self.new.cells(), self.lists.cells(), self.after),
        };
        let (out, values) = (self.out.cells_mut(), self.values.cells_mut());
        let refusal = self.library.evaluate(old, new, lists, sizes, words, out, values);
        if refusal != 0 {
            let kept = self.out.keeps(&[], 0) && self.values.keeps(&[], 0);
            spoilt_if(!kept, || format!("refusal {refusal} of evaluating filled a store"))?;
            return Err(Not::Refused(refusal));
        }
        let count = self.values.cells()[0] as usize;
        let kept = self.out.keeps(&[], count) && self.values.keeps(&[], 1) && count <= room;
        spoilt_if(!kept, || "evaluating filled more than its answer".into())?;
        Ok(&self.out.cells()[..count])
    }

    /// Fills an assignment back.
    pub fn fill_back(&mut self, image: &Image, flags: &[u8], words: &[u64]) -> Given<&[u64]> {
        self.calls.fill_backs += 1;
        self.words.lay(words, words.len());
        let lists = image.lists_with(definitions_of(image, self.lists.form, &mut self.front));
        let refusal = self.library.fill_back(&image.old, lists, image.sizes, flags, self.words.cells_mut());
        let from = if refusal == 0 { words.len() } else { 0 };
        spoilt_if(!self.words.keeps(words, from), || format!("answer {refusal} of filling back filled more"))?;
        if refusal == 0 { Ok(self.words.cells()) } else { Err(Not::Refused(refusal)) }
    }

    /// The flags as fusing left them.
    pub fn flags(&self) -> &[u8] {
        &self.flags.cells()[..self.after.wires]
    }

    /// Fusing again with each shorter slice for the values: the first are told, and the stores are filled alike.
    pub fn fault_of_short_values(&mut self, image: &Image, slots: u64, room: usize) -> Option<String> {
        let lay_and_call = |ours: &mut Self, values: usize| {
            ours.lay_fuse(image, room, image.sizes.wires, Length::Longer(2), values);
            let refusal = ours.call_fuse(image, slots);
            let rows = ours.lists.cells().rows.map(<[u64]>::to_vec);
            let definitions: Vec<(u16, u64)> = match ours.lists.cells().definitions {
                Definitions::Numbers(dsts, rhss) => dsts.iter().copied().zip(rhss.iter().copied()).collect(),
                Definitions::Records(records) => records.iter().map(|of| (of.dst, of.rhs)).collect(),
            };
            let told = ours.values.cells().to_vec();
            let margins = ours.values.keeps(&[], values);
            let flags = ours.flags.cells().to_vec();
            (refusal, told, margins, (ours.new.cells().to_vec(), rows, definitions, flags))
        };
        let (refusal, told, _, stores) = lay_and_call(self, 5);
        (0..5).find_map(|values| {
            let again = lay_and_call(self, values);
            let equal = again == (refusal, told[..values].to_vec(), true, stores.clone());
            (!equal && refusal == 0).then(|| format!("fusing with {values} values"))
        })
    }
}

/// Fuses by the library: a third side of the type `outcome::Fuse`. A store that is not as it has to be is told as a panic is.
pub fn fuse(system: &System, slots: usize, room: usize) -> Outcome {
    thread_local! {
        static OURS: RefCell<Vec<Ours>> = RefCell::new(Ours::linked());
    }
    OURS.with_borrow_mut(|ours| {
        let ours = ours.first_mut().expect("the library is linked");
        let flags = system.wires.min(MAX_WIRES);
        outcome_of(ours.fuse(&Image::of(system), slots as u64, room, flags, Length::Exact))
    })
}

pub fn outcome_of(given: Given<Fused>) -> Outcome {
    match given {
        Ok(fused) => Outcome::Fused(fused),
        Err(Not::Refused(refusal)) => Outcome::Refused(refusal),
        Err(Not::Unread(fault)) => Outcome::Unread(fault),
        Err(Not::Spoilt(what)) => Outcome::Panicked(what),
    }
}
