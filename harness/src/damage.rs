//! Damaged house files: every fault of the table at every kind of place, with the answer that 01 gives to it.

use crate::{
    generate,
    house::{self, CUT, FULL, Fault, ROOM, Refusal, SHAPE, SHIFT, TAG, WIRE},
    ours::{Length, Ours, Room},
    random::Random,
    second_reader,
    system::{AND, BMUL, Definition, IMUL, MAX_DEFINITIONS, MAX_OTHERS, MAX_TERMS, System, Term, ZERO},
    third::fault_of_read,
};

pub struct Damaged {
    pub what: String,
    pub bytes: Vec<u8>,
    pub expected: Fault,
    /// Whether it has this one fault and no other.
    pub is_plain: bool,
}

/// A number in a good file: where it stands, in which field, and what it is.
#[derive(Copy, Clone, Debug, PartialEq, Eq)]
struct Place {
    field: usize,
    at: usize,
    part: Part,
}

#[derive(Copy, Clone, Debug, PartialEq, Eq)]
enum Part {
    Destination,
    TermCount,
    Wire,
    Inner,
    Outer,
}

/// A field of a good file: where its tag, its payload and the next field stand.
#[derive(Copy, Clone)]
struct Span {
    tag: u8,
    start: usize,
    payload: usize,
    end: usize,
}

fn number_at(bytes: &[u8], at: usize) -> u16 {
    u16::from_le_bytes([bytes[at], bytes[at + 1]])
}

fn set_number(bytes: &mut [u8], at: usize, number: u16) {
    bytes[at..at + 2].copy_from_slice(&number.to_le_bytes());
}

/// The fields of a good file.
fn spans(bytes: &[u8]) -> Vec<Span> {
    let mut spans = Vec::new();
    let mut start = 0;
    while start < bytes.len() {
        let payload = start + 3;
        let end = payload + usize::from(number_at(bytes, start + 1));
        spans.push(Span { tag: bytes[start], start, payload, end });
        start = end;
    }
    spans
}

/// The numbers of a good field of tag 2 to 6.
fn places(bytes: &[u8], span: Span) -> Vec<Place> {
    let mut places = Vec::new();
    let mut at = span.payload;
    let mut note = |at: &mut usize, part| {
        places.push(Place { field: span.start, at: *at, part });
        *at += 2;
    };
    if span.tag == house::TAG_LINEAR {
        note(&mut at, Part::Destination);
    }
    while at < span.end {
        let count = number_at(bytes, at);
        note(&mut at, Part::TermCount);
        for _ in 0..count {
            for part in [Part::Wire, Part::Inner, Part::Outer] {
                note(&mut at, part);
            }
        }
    }
    places
}

/// Numbers that name no shift: half-word amounts from 32 on, and from 512 on.
const NO_SHIFTS: [u16; 9] = [288, 319, 352, 383, 447, 480, 511, 512, 65_535];

/// Every fault that one number, tag or length of a good file can be given.
pub fn damaged(bytes: &[u8]) -> Vec<Damaged> {
    let mut out = Vec::new();
    let spans = spans(bytes);
    for (position, &span) in spans.iter().enumerate() {
        cut_field(bytes, span, &mut out);
        retag(bytes, span, position == 0, &mut out);
        reshape(bytes, span, &mut out);
        if (house::TAG_AND..=house::TAG_LINEAR).contains(&span.tag) {
            damage_parts(bytes, span, &mut out);
        }
    }
    damage_wire_count(bytes, &mut out);
    after_the_end(bytes, &mut out);
    out
}

fn with(bytes: &[u8], change: impl FnOnce(&mut Vec<u8>)) -> Vec<u8> {
    let mut changed = bytes.to_vec();
    change(&mut changed);
    changed
}

fn push(out: &mut Vec<Damaged>, what: String, bytes: Vec<u8>, refusal: Refusal, offset: usize) {
    let expected = Fault { refusal, offset };
    let is_plain = !what.contains(", ");
    out.push(Damaged { what, bytes, expected, is_plain });
}

/// Truncations at every byte of the field: the first cuts the file off before it.
fn cut_field(bytes: &[u8], span: Span, out: &mut Vec<Damaged>) {
    for at in span.start..span.end {
        push(out, format!("cut at {at}"), bytes[..at].to_vec(), CUT, span.start);
    }
}

fn retag(bytes: &[u8], span: Span, first: bool, out: &mut Vec<Damaged>) {
    let wrong: &[u8] = if first { &[0, 2, 6, 7, 8, 255] } else { &[0, 1, 8, 255] };
    for &tag in wrong {
        let retagged = with(bytes, |bytes| bytes[span.start] = tag);
        let what = format!("tag {tag} at {}", span.start);
        // The tag comes before the payload's end, and after its own three bytes.
        push(out, format!("{what}, cut behind"), retagged[..span.payload].to_vec(), TAG, span.start);
        push(out, format!("{what}, cut within"), retagged[..span.payload - 1].to_vec(), CUT, span.start);
        push(out, what, retagged, TAG, span.start);
    }
}

/// A payload that is not exactly its parts.
fn reshape(bytes: &[u8], span: Span, out: &mut Vec<Damaged>) {
    let length = span.end - span.payload;
    for less in 1..=length.min(9) {
        let shortened = with(bytes, |bytes| {
            bytes.drain(span.end - less..span.end);
            set_number(bytes, span.start + 1, (length - less) as u16);
        });
        push(out, format!("{less} bytes less at {}", span.start), shortened, SHAPE, span.start);
    }
    for more in 1..=9 {
        let lengthened = with(bytes, |bytes| {
            bytes.splice(span.end..span.end, vec![0; more]);
            set_number(bytes, span.start + 1, (length + more) as u16);
        });
        push(out, format!("{more} bytes more at {}", span.start), lengthened, SHAPE, span.start);
    }
    let far = with(bytes, |bytes| set_number(bytes, span.start + 1, u16::MAX));
    push(out, format!("length 65535 at {}", span.start), far, CUT, span.start);
}

fn damage_parts(bytes: &[u8], span: Span, out: &mut Vec<Damaged>) {
    let wires = number_at(bytes, 3);
    let places = places(bytes, span);
    for (position, place) in places.iter().enumerate() {
        let rest = &places[position + 1..];
        match place.part {
            Part::Destination | Part::Wire => {
                damage_number(bytes, *place, &[wires, u16::MAX], WIRE, out);
                first_of_two(bytes, *place, wires, WIRE, rest, out);
            }
            Part::Inner | Part::Outer => {
                damage_number(bytes, *place, &NO_SHIFTS, SHIFT, out);
                first_of_two(bytes, *place, 512, SHIFT, rest, out);
            }
            Part::TermCount => {
                damage_number(bytes, *place, &[u16::MAX, too_many(span, *place)], SHAPE, out);
                first_of_two(bytes, *place, u16::MAX, SHAPE, rest, out);
            }
        }
    }
}

/// The least count whose terms are not all in the payload.
fn too_many(span: Span, count: Place) -> u16 {
    ((span.end - count.at - 2) / 6 + 1) as u16
}

fn damage_number(bytes: &[u8], place: Place, numbers: &[u16], refusal: Refusal, out: &mut Vec<Damaged>) {
    for &number in numbers {
        let changed = with(bytes, |bytes| set_number(bytes, place.at, number));
        let what = format!("{:?} {number} at {}", place.part, place.at);
        push(out, what, changed, refusal, place.field);
    }
}

/// A second fault behind the first changes nothing: in each kind of number after it, and behind the parts.
fn first_of_two(bytes: &[u8], place: Place, number: u16, refusal: Refusal, rest: &[Place], out: &mut Vec<Damaged>) {
    for part in [Part::TermCount, Part::Wire, Part::Inner, Part::Outer] {
        let Some(later) = rest.iter().find(|later| later.part == part) else {
            continue;
        };
        let changed = with(bytes, |bytes| {
            set_number(bytes, place.at, number);
            set_number(bytes, later.at, u16::MAX);
        });
        let what = format!("{:?} {number} at {}, then {part:?}", place.part, place.at);
        push(out, what, changed, refusal, place.field);
    }
}

fn damage_wire_count(bytes: &[u8], out: &mut Vec<Damaged>) {
    for count in [0, 4097, u16::MAX] {
        let changed = with(bytes, |bytes| set_number(bytes, 3, count));
        push(out, format!("{count} wires"), changed, FULL, 0);
    }
}

fn after_the_end(bytes: &[u8], out: &mut Vec<Damaged>) {
    for extra in [vec![0], vec![7, 0, 0], vec![1, 2, 0, 1, 0]] {
        let what = format!("{extra:?} after the end");
        push(out, what, [bytes, &extra].concat(), SHAPE, bytes.len());
    }
    push(out, "empty".into(), Vec::new(), CUT, 0);
}

/// Files that go over a limit in their last field but the end, and the same with another fault in that field, which comes first.
pub fn over_limits() -> Vec<Damaged> {
    let mut out = Vec::new();
    let mut system = System::new(2);
    system.linears = vec![Definition { dst: 0, rhs: vec![] }; MAX_DEFINITIONS + 1];
    over("definitions", &system, &mut out);
    let mut system = System::new(2);
    system.others[ZERO] = vec![vec![vec![]]; MAX_OTHERS + 1];
    over("others", &system, &mut out);
    let mut system = System::new(2);
    system.others[ZERO] = vec![vec![vec![Term::plain(1); 128]]; MAX_TERMS / 128];
    system.others[ZERO].push(vec![vec![Term::plain(0)]]);
    over("terms", &system, &mut out);
    let mut system = System::new(2);
    system.others[ZERO] = vec![vec![vec![Term::plain(1); MAX_TERMS + 1]]];
    over("terms in one field", &system, &mut out);
    out
}

fn over(what: &str, system: &System, out: &mut Vec<Damaged>) {
    let bytes = house::write(system).expect("no field is too wide");
    let spans = spans(&bytes);
    let last = spans[spans.len() - 2];
    let more = with(&bytes, |bytes| {
        bytes.splice(last.end..last.end, [0]);
        set_number(bytes, last.start + 1, (last.end - last.payload + 1) as u16);
    });
    push(out, format!("{what} over, with a byte more"), more, SHAPE, last.start);
    if let Some(wire) = places(&bytes, last).iter().find(|place| matches!(place.part, Part::Wire | Part::Destination)) {
        let bad = with(&bytes, |bytes| set_number(bytes, wire.at, 2));
        push(out, format!("{what} over, with a bad wire"), bad, WIRE, last.start);
    }
    push(out, format!("{what} over"), bytes, FULL, last.start);
}

/// A good file by hand: a field of every kind, operands of no, one and two terms, identities and pairs.
pub fn least_file() -> Vec<u8> {
    let mut system = System::new(4);
    let operands = |terms: &[&[Term]]| terms.iter().map(|terms| terms.to_vec()).collect();
    let [x, pair, odd, y] = [Term::plain(0), Term::new(1, 65, 3), Term::new(1, 192, 64), Term::single(3, 287)];
    system.others[AND].push(operands(&[&[y], &[], &[x, pair]]));
    system.others[IMUL].push(operands(&[&[x], &[], &[], &[odd]]));
    system.others[BMUL].push(operands(&[&[], &[], &[pair], &[], &[], &[y]]));
    system.others[ZERO].push(operands(&[&[odd, y]]));
    system.linears.push(Definition { dst: 3, rhs: vec![x, Term::single(2, 511 - 32)] });
    house::write(&system).expect("no field is too wide")
}

/// A good file with fields of all kinds, small, its fields in any order.
pub fn good_file(seed: u64) -> Vec<u8> {
    let mut random = Random::new(seed);
    let kind = random.below(9);
    let bytes = house::write(&generate::system(kind, seed)).expect("small systems have no wide field");
    let spans = spans(&bytes);
    let mut middle = spans[1..spans.len() - 1].to_vec();
    random.shuffle(&mut middle);
    let mut shuffled = bytes[..spans[0].end].to_vec();
    for span in middle {
        shuffled.extend(&bytes[span.start..span.end]);
    }
    shuffled.extend([house::TAG_END, 0, 0]);
    shuffled
}

/// Random changes of a few bytes: set, removed, doubled.
pub fn mutated(bytes: &[u8], random: &mut Random) -> Vec<u8> {
    let mut out = bytes.to_vec();
    for _ in 0..random.between(1, 3) {
        let at = random.below(out.len());
        match random.below(4) {
            0 => out[at] = random.below(256) as u8,
            1 => out[at] = *random.pick(&[0, 1, 2, 5, 6, 7, 255]),
            2 => drop(out.remove(at)),
            _ => out.insert(at, out[at]),
        }
        if out.is_empty() {
            return out;
        }
    }
    out
}

/// Files read, and those that the reader answered otherwise than expected.
#[derive(Debug, Default, PartialEq, Eq)]
pub struct Read {
    pub known: u64,
    pub mutated: u64,
    pub accepted: u64,
    pub refused: [u64; 16],
    pub differences: u64,
    /// Files that the project's own library read, and those that it had no room for.
    pub ours: u64,
    pub no_room: u64,
}

/// The project's own reader in its forms, and how long its stores are: as the good file needs them, or longer.
pub struct ThirdReader {
    ours: Vec<Ours>,
    room: Room,
    reads: u64,
}

impl ThirdReader {
    pub fn new(ours: Vec<Ours>) -> Self {
        Self { ours, room: Room::of(&System::new(1), Length::Full), reads: 0 }
    }

    fn lend_for(&mut self, good: &[u8], seed: u64) {
        let system = house::read(good).expect("the file is good");
        self.room = Room::of(&system, Length::by_seed(seed));
    }

    /// What is wrong about its answer, in words; and whether it is ROOM.
    fn fault_of(&mut self, bytes: &[u8], by_first: &Result<System, Fault>) -> (Option<String>, bool) {
        self.reads += 1;
        let no_room = by_first.as_ref().is_ok_and(|system| !self.room.holds(system));
        let full = Err(Fault { refusal: ROOM, offset: bytes.len() });
        let expected = if no_room { &full } else { by_first };
        let values = 7 + self.reads as usize % 2;
        let fault = self.ours.iter_mut().find_map(|ours| {
            let fault = fault_of_read(ours.read(bytes, &self.room, values), expected)?;
            Some(format!("{:?}: {fault}", ours.form()))
        });
        (fault, no_room)
    }
}

impl Read {
    fn note(&mut self, third: &mut ThirdReader, bytes: &[u8], expected: Option<Fault>, what: impl Fn() -> String) {
        let first = house::read(bytes);
        let second = second_reader::read(bytes);
        let agree = match (&first, &second) {
            (Ok(system), Ok(fields)) => second_reader::describes(fields, system),
            (Err(one), Err(other)) => one == other,
            _ => false,
        };
        let as_expected = expected.is_none() || first.as_ref().err() == expected.as_ref();
        match &first {
            Ok(_) => self.accepted += 1,
            Err(fault) => self.refused[usize::from(fault.refusal)] += 1,
        }
        if !third.ours.is_empty() {
            self.ours += third.ours.len() as u64;
            let (fault, no_room) = third.fault_of(bytes, &first);
            self.no_room += u64::from(no_room);
            if let Some(fault) = fault {
                self.differences += 1;
                println!("difference: {}: ours: {fault}, {bytes:02X?}", what());
            }
        }
        if !agree || !as_expected {
            self.differences += 1;
            let (first, second) = (first.err(), second.err());
            println!("difference: {}: expected {expected:?}, first reader {first:?}, second {second:?}", what());
        }
    }
}

/// Damages `count` good files in every way, and mutates each some hundred times.
pub fn run(first: u64, count: u64) -> Read {
    run_with(Ours::linked(), first, count)
}

/// The same with this library as the third reader.
pub fn run_with(ours: Vec<Ours>, first: u64, count: u64) -> Read {
    let mut third = ThirdReader::new(ours);
    let mut read = Read::default();
    for damaged in over_limits() {
        read.known += 1;
        read.note(&mut third, &damaged.bytes, Some(damaged.expected), || damaged.what.clone());
    }
    let least = ("least file".to_string(), least_file());
    let drawn = (first..first + count).map(|seed| (format!("seed {seed}"), good_file(seed)));
    for (seed, (name, good)) in std::iter::once(least).chain(drawn).enumerate() {
        let seed = first + seed as u64;
        third.lend_for(&good, seed);
        read.note(&mut third, &good, None, || name.clone());
        for damaged in damaged(&good) {
            read.known += 1;
            read.note(&mut third, &damaged.bytes, Some(damaged.expected), || format!("{name}: {}", damaged.what));
        }
        let mut random = Random::new(seed);
        for _ in 0..200 {
            read.mutated += 1;
            read.note(&mut third, &mutated(&good, &mut random), None, || format!("{name}: mutated"));
        }
    }
    read
}
