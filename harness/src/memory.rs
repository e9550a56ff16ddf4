//! The checks in memory: 01's numbers 3 to 6 and 8 to 10 read over plain lists, and the cases that `replay_lower` replays.

use std::{collections::HashSet, fmt::Write, fs, io, path::Path};

use crate::{ours::Image, random::Random};

/// Rows of And, Imul, Bmul and Zero have so many operands.
const ARITIES: [usize; 4] = [3, 4, 6, 1];

/// Where the destinations' places begin: those below are the memory's.
const DESTINATIONS: usize = 65536;

/// A place past them all: check what stands in memory.
const CHECK: u64 = 131_072;

/// The replay prints a digest of the answers modulo this.
const PRIME: u64 = 1_000_000_007;

const NEW_STORE: u64 = 1 << 63;

/// A system as it is lent, every number as it stands: any at all.
#[derive(Clone)]
pub struct Memory {
    limit: u64,
    wires: u64,
    /// And, Imul, Bmul, Zero, Linear.
    counts: [u64; 5],
    old: Vec<u64>,
    new: Vec<u64>,
    rows: [Vec<u64>; 4],
    dsts: Vec<u64>,
    rhss: Vec<u64>,
}

fn term(wire: u64, inner: u64, outer: u64) -> u64 {
    wire | inner << 16 | outer << 32
}

fn operand(start: usize, len: usize) -> u64 {
    (start as u64) << 32 | len as u64
}

fn is_shift(number: u64) -> bool {
    number < 256 || number < 512 && number % 64 < 32
}

impl Memory {
    /// What stands in an image, with or without its new terms, where so many terms are allowed.
    pub fn of(image: &Image, with_new: bool, limit: u64) -> Self {
        Self {
            limit,
            wires: image.sizes.wires as u64,
            counts: image.sizes.counts.map(|count| count as u64),
            old: image.old.clone(),
            new: if with_new { image.new.clone() } else { Vec::new() },
            rows: image.rows.clone(),
            dsts: image.dsts.iter().map(|&dst| dst.into()).collect(),
            rhss: image.rhss.clone(),
        }
    }

    /// 3 to 6.
    pub fn check(&self) -> Result<(), u8> {
        self.check_places().and_then(|()| self.check_limits())
    }

    /// The terms of an operand, or nothing if it ends past its store.
    fn terms(&self, operand: u64) -> Option<&[u64]> {
        let store = if operand >= NEW_STORE { &self.new } else { &self.old };
        let start = (operand >> 32 & 0x7FFF_FFFF) as usize;
        store.get(start..start + (operand & 0xFFFF_FFFF) as usize)
    }

    fn term_fault(&self, term: u64) -> Option<u8> {
        if term & 0xFFFF >= self.wires {
            Some(5)
        } else if !is_shift(term >> 16 & 0xFFFF) || !is_shift(term >> 32) {
            Some(4)
        } else {
            None
        }
    }

    fn operand_fault(&self, operand: u64) -> Option<u8> {
        match self.terms(operand) {
            None => Some(3),
            Some(terms) => terms.iter().find_map(|&term| self.term_fault(term)),
        }
    }

    /// The first so many of a list, or 3.
    fn first(list: &[u64], count: u64, arity: usize) -> Result<&[u64], u8> {
        let wanted = u128::from(count) * arity as u128;
        if wanted > list.len() as u128 { Err(3) } else { Ok(&list[..wanted as usize]) }
    }

    fn rows(&self, kind: usize) -> Result<&[u64], u8> {
        Self::first(&self.rows[kind], self.counts[kind], ARITIES[kind])
    }

    fn check_places(&self) -> Result<(), u8> {
        for kind in 0..4 {
            if let Some(fault) = self.rows(kind)?.iter().find_map(|&operand| self.operand_fault(operand)) {
                return Err(fault);
            }
        }
        let dsts = Self::first(&self.dsts, self.counts[4], 1)?;
        let rhss = Self::first(&self.rhss, self.counts[4], 1)?;
        for (&dst, &rhs) in dsts.iter().zip(rhss) {
            if dst >= self.wires {
                return Err(5);
            }
            if let Some(fault) = self.operand_fault(rhs) {
                return Err(fault);
            }
        }
        Ok(())
    }

    fn check_limits(&self) -> Result<(), u8> {
        let others: u128 = self.counts[..4].iter().map(|&count| u128::from(count)).sum();
        if self.wires == 0 || self.wires > 4096 || self.counts[4] > 1024 || others > 1024 {
            return Err(6);
        }
        let mut terms: u128 = 0;
        for kind in 0..4 {
            terms += self.rows(kind)?.iter().map(|&operand| u128::from(operand as u32)).sum::<u128>();
        }
        terms += self.rhss[..self.counts[4] as usize].iter().map(|&operand| u128::from(operand as u32)).sum::<u128>();
        if terms > u128::from(self.limit) { Err(6) } else { Ok(()) }
    }

    fn check_definitions(&self) -> Result<(), u8> {
        let count = self.counts[4] as usize;
        let defined: HashSet<u64> = self.dsts[..count].iter().copied().collect();
        if defined.len() < count {
            return Err(8);
        }
        let right_sides: Vec<&[u64]> = self.rhss[..count].iter().filter_map(|&rhs| self.terms(rhs)).collect();
        if right_sides.iter().any(|terms| terms.is_empty()) {
            return Err(9);
        }
        let doubled = |term: u64| (term >> 32) % 64 != 0;
        let in_definition = right_sides.iter().any(|terms| terms.iter().any(|&term| doubled(term)));
        let mut in_row = false;
        for kind in 0..4 {
            for terms in self.rows(kind)?.iter().filter_map(|&operand| self.terms(operand)) {
                in_row |= terms.iter().any(|&term| doubled(term) && defined.contains(&(term & 0xFFFF)));
            }
        }
        if in_definition || in_row { Err(10) } else { Ok(()) }
    }

    /// The number that is given, 0 for none.
    fn fault(&self) -> u8 {
        self.check().and_then(|()| self.check_definitions()).err().unwrap_or(0)
    }

    fn stores(&self) -> [&Vec<u64>; 8] {
        let [ands, imuls, bmuls, zeros] = &self.rows;
        [&self.old, &self.new, ands, imuls, bmuls, zeros, &self.dsts, &self.rhss]
    }

    /// What to put where: limit, counts, where each store begins and ends, and what stands in them.
    fn image(&self) -> Vec<Edit> {
        let mut numbers = vec![self.limit, self.wires];
        numbers.extend(self.counts);
        let mut end = 23;
        for (i, store) in self.stores().into_iter().enumerate() {
            let begin = if i == 6 { 0 } else { end };
            numbers.extend([begin, begin + store.len() as u64]);
            end += if i == 6 { 0 } else { store.len() as u64 };
        }
        for (_, store) in self.stores().into_iter().enumerate().filter(|&(i, _)| i != 6) {
            numbers.extend(store);
        }
        let destinations = self.dsts.iter().enumerate().map(|(i, &dst)| (DESTINATIONS + i, dst));
        numbers.into_iter().enumerate().chain(destinations).collect()
    }

    /// What stands in a memory, where the places of its stores are places.
    fn of_image(image: &[u64]) -> Self {
        let part = |from: usize, i: usize| image[from + image[i] as usize..from + image[i + 1] as usize].to_vec();
        let store = |i: usize| part(0, 7 + 2 * i);
        Self {
            limit: image[0],
            wires: image[1],
            counts: [image[2], image[3], image[4], image[5], image[6]],
            old: store(0),
            new: store(1),
            rows: [store(2), store(3), store(4), store(5)],
            dsts: part(DESTINATIONS, 19).iter().map(|&dst| dst % 65536).collect(),
            rhss: store(7),
        }
    }
}

/// Three rows of each kind and three definitions, of wires 6, 7 and 8; three terms in each operand; the middle operand of each list in the
/// new store. Undefined wires have outer shifts in rows.
fn small() -> Memory {
    let mut old = Vec::new();
    let mut new = Vec::new();
    let mut made = 0;
    let mut list = |count: usize, row: bool| -> Vec<u64> {
        let mut place = |i: usize| {
            let store = if i == count / 2 { &mut new } else { &mut old };
            let start = store.len();
            for _ in 0..3 {
                let wire = if row { made % 9 } else { made % 6 };
                let outer = if row && wire < 6 {
                    [0, 65, 192, 511 - 32][made as usize % 4]
                } else {
                    [0, 64, 448][made as usize % 3]
                };
                store.push(term(wire, [0, 1, 130, 255, 287, 351, 415, 479][made as usize % 8], outer));
                made += 1;
            }
            if i == count / 2 { operand(start, 3) | NEW_STORE } else { operand(start, 3) }
        };
        (0..count).map(&mut place).collect()
    };
    let rows = ARITIES.map(|arity| list(3 * arity, true));
    let rhss = list(3, false);
    Memory { limit: 135, wires: 9, counts: [3; 5], old, new, rows, dsts: vec![6, 8, 7], rhss }
}

/// One number put in one place of a memory.
type Edit = (usize, u64);

/// A memory with nothing in it.
fn empty() -> Vec<u64> {
    vec![0; DESTINATIONS + 2048]
}

/// The faults of the table, each at the first, a middle and the last place where it can stand, and numbers that are no fault.
fn edits(image: &[u64]) -> Vec<Edit> {
    let begin = |store: usize| image[7 + 2 * store] as usize;
    let end = |store: usize| image[8 + 2 * store] as usize;
    let mut edits = Vec::new();
    let (old_terms, new_terms) = (end(0) - begin(0), end(1) - begin(1));
    for store in [2, 3, 4, 5, 7] {
        for place in [begin(store), (begin(store) + end(store)) / 2, end(store) - 1] {
            edits.push((place, operand(old_terms - 2, 3)));
            edits.push((place, operand(new_terms - 2, 3) | NEW_STORE));
            edits.push((place, operand(old_terms, 0)));
            edits.push((place, operand(new_terms + 1, 0) | NEW_STORE));
            edits.push((place, u64::MAX));
            let handle = image[place];
            let terms = if handle >= NEW_STORE { begin(1) } else { begin(0) } + (handle >> 32 & 0x7FFF_FFFF) as usize;
            edits.push((terms, image[terms] & !0xFFFF | 9));
            edits.push((terms + 2, image[terms + 2] & !0xFFFF | 0x8001));
            edits.push((terms + 1, image[terms + 1] & !(0xFFFF << 16) | 288 << 16));
            edits.push((terms + 2, image[terms + 2] & 0xFFFF_FFFF | 512 << 32));
            edits.push((terms, image[terms] & 0xFFFF_FFFF | 1 << 48));
            edits.push((terms + 1, term(6 + (terms as u64 % 3), 3, 65)));
            edits.push((terms + 2, term(terms as u64 % 6, 130, 65)));
        }
        edits.push((8 + 2 * store, end(store) as u64 - 1));
    }
    for definition in 0..3 {
        edits.push((DESTINATIONS + definition, 9));
        edits.push((DESTINATIONS + definition, image[DESTINATIONS + (definition + 1) % 3]));
        edits.push((begin(7) + definition, image[begin(7) + definition] & !0xFFFF_FFFF));
    }
    edits.push((8 + 2 * 6, end(6) as u64 - 1));
    edits.extend([(0, 134), (1, 0), (1, 4097), (1, 4096), (6, u64::MAX), (2, u64::MAX / 3 + 1)]);
    edits
}

/// One wire and nothing else, in stores of no length.
fn nothing() -> Memory {
    let none = Vec::new;
    let rows = [none(), none(), none(), none()];
    Memory { limit: 0, wires: 1, counts: [0; 5], old: none(), new: none(), rows, dsts: none(), rhss: none() }
}

/// 1,024 or 1,025 definitions, or rows of one kind.
fn many(definitions: usize, zeros: usize) -> Memory {
    let mut small = small();
    small.limit = 8192;
    small.wires = 4096;
    small.counts = [0, 0, 0, zeros as u64, definitions as u64];
    small.rows[3] = vec![operand(0, 1); zeros];
    small.dsts = (0..definitions as u64).map(|i| 4095 - i).collect();
    small.rhss = vec![operand(0, 1); definitions];
    small
}

/// Operands that overlap, of 8,192 or 24,576 terms together.
fn long(limit: u64) -> Memory {
    let mut long = small();
    long.limit = limit;
    long.counts = [limit / 512 / 3, 0, 0, limit / 512 % 3, 0];
    long.old = vec![term(8, 511 - 32, 0); 513];
    long.rows[0] = vec![operand(1, 512); 3 * long.counts[0] as usize];
    long.rows[3] = vec![operand(0, 512); long.counts[3] as usize];
    long
}

/// The replay's input and what it has to print.
struct Replay {
    memory: Vec<u64>,
    input: Vec<u8>,
    given: [u64; 11],
    digest: u64,
}

impl Replay {
    fn pair(&mut self, place: u64, number: u64) {
        self.input.extend(place.to_le_bytes());
        self.input.extend(number.to_le_bytes());
    }

    fn put(&mut self, (place, number): Edit) {
        if self.memory[place] != number {
            self.memory[place] = number;
            self.pair(place as u64, number);
        }
    }

    fn check(&mut self) {
        let fault = Memory::of_image(&self.memory).fault();
        self.given[usize::from(fault)] += 1;
        self.digest = (self.digest * 31 + u64::from(fault)) % PRIME;
        self.pair(CHECK, u64::from(fault));
    }

    /// Checks the memory with some numbers put in it, and takes them back.
    fn case(&mut self, edits: &[Edit]) {
        let before: Vec<Edit> = edits.iter().map(|&(place, _)| (place, self.memory[place])).collect();
        edits.iter().for_each(|&edit| self.put(edit));
        self.check();
        before.into_iter().rev().for_each(|edit| self.put(edit));
    }

    fn whole(&mut self, memory: &Memory, edits: &[Edit]) {
        memory.image().into_iter().for_each(|edit| self.put(edit));
        self.check();
        edits.iter().for_each(|&edit| self.case(&[edit]));
    }

    fn printed(&self) -> String {
        format!("right {} wrong 0 digest {}\n", self.given.iter().sum::<u64>(), self.digest)
    }

    /// How often each number is given.
    fn counts(&self) -> String {
        let mut text = format!("{} bytes", self.input.len());
        for (number, given) in self.given.iter().enumerate().filter(|&(_, &given)| given > 0) {
            write!(text, "\nnumber {number} given {given}").expect("a string can be written");
        }
        text + "\n"
    }
}

/// Each fault alone, each two at once, numbers at random, and the limits: by seed 0.
fn replay() -> Replay {
    let mut replay = Replay { memory: empty(), input: Vec::new(), given: [0; 11], digest: 0 };
    replay.whole(&small(), &[]);
    let edits = edits(&replay.memory);
    edits.iter().for_each(|&edit| replay.case(&[edit]));
    // Counts and definitions: there are fewer places for 6, 8, 9 and 10 than for 3, 4 and 5.
    let rhss = replay.memory[21] as usize;
    let rare = |(place, _): Edit| place < 23 || place >= rhss;
    for (i, &one) in edits.iter().enumerate() {
        for &other in edits[i + 1..].iter().filter(|other| other.0 != one.0) {
            if rare(one) && rare(other) || (one.0 * 7 + other.0) % 11 == 0 {
                replay.case(&[one, other]);
            }
        }
    }
    let mut random = Random::new(0);
    for _ in 0..100 {
        let place = random.between(23, small().image().len() - 4);
        replay.case(&[(place, random.word() >> random.below(64))]);
    }
    replay.whole(&nothing(), &[(1, 0), (1, 4096), (1, 4097), (2, 1), (6, 1)]);
    replay.whole(&many(1024, 0), &[(6, 1025), (6, 1023), (0, 1023), (0, 1024)]);
    replay.whole(&many(1, 1024), &[(5, 1025), (5, 1023), (2, 1), (0, 1024), (0, 1025)]);
    replay.whole(&many(1025, 0), &[]);
    replay.whole(&many(0, 1025), &[]);
    for limit in [8192, 24576] {
        replay.whole(&long(limit), &[(0, limit - 1), (0, limit + 1), (1, 8), (0, u64::MAX)]);
    }
    replay
}

/// Writes `stdin` and `stdout` of replay_lower to its folder.
pub fn write(folder: &Path) -> io::Result<String> {
    let replay = replay();
    fs::write(folder.join("stdin"), &replay.input)?;
    fs::write(folder.join("stdout"), replay.printed())?;
    Ok(replay.counts() + &replay.printed())
}

#[cfg(test)]
mod tests {
    use super::*;

    #[test]
    fn the_small_system_has_no_fault() {
        assert_eq!(small().fault(), 0);
        let mut memory = empty();
        small().image().into_iter().for_each(|(place, number)| memory[place] = number);
        assert_eq!(Memory::of_image(&memory).fault(), 0);
    }

    #[test]
    fn every_number_is_given() {
        let replay = replay();
        for number in [0, 3, 4, 5, 6, 8, 9, 10] {
            assert!(replay.given[number] > 10, "{number}");
        }
        assert!(replay.input.len() <= 262_144);
    }
}
