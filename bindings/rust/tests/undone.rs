//! Filling back undoes fusing, and the patched constraints have the words of the old ones: on systems made at random.

use tiwzerand::{And, Assignment, Bmul, Builder, Fused, Imul, Shift, Slots, System, Term, Values, Wire};

/// xorshift, so that a run can be repeated.
struct Dice(u64);

impl Dice {
    fn word(&mut self) -> u64 {
        self.0 ^= self.0 << 13;
        self.0 ^= self.0 >> 7;
        self.0 ^= self.0 << 17;
        self.0
    }

    fn below(&mut self, n: usize) -> usize {
        (self.word() % n as u64) as usize
    }

    fn shift(&mut self) -> Shift {
        if self.below(2) == 0 {
            return Shift::IDENTITY;
        }
        loop {
            if let Ok(shift) = Shift::from_number(self.below(512) as u16) {
                return shift;
            }
        }
    }

    fn terms(&mut self, wires: &[Wire], least: usize) -> Vec<Term> {
        (0..least + self.below(4)).map(|_| wires[self.below(wires.len())].shifted(self.shift())).collect()
    }
}

fn system(dice: &mut Dice) -> System {
    let mut b = Builder::new();
    let mut wires: Vec<Wire> = (0..1 + dice.below(6)).map(|_| b.wire()).collect();
    for _ in 0..dice.below(30) {
        let rhs = dice.terms(&wires, 1);
        let d = b.wire();
        b.define(d, &rhs);
        wires.push(d);
    }
    for _ in 0..dice.below(20) {
        let o: Vec<Vec<Term>> = (0..6).map(|_| dice.terms(&wires, 0)).collect();
        match dice.below(4) {
            0 => b.and(And { a: &o[0], b: &o[1], c: &o[2] }),
            1 => b.imul(Imul { a: &o[0], b: &o[1], hi: &o[2], lo: &o[3] }),
            2 => b.bmul(Bmul { a_lo: &o[0], a_hi: &o[1], b_lo: &o[2], b_hi: &o[3], c_lo: &o[4], c_hi: &o[5] }),
            _ => b.zero(&o[0]),
        }
    }
    b.build().unwrap()
}

/// Random words, the defined wires having those of their definitions.
fn satisfied(system: &System, dice: &mut Dice) -> Assignment {
    let mut words = Assignment::new((0..system.lists().wires()).map(|_| dice.word()).collect());
    // each definition names wires before it, so one pass in list order settles one more wire at least
    loop {
        let wrong = system.evaluate(&words).unwrap().linears().find(|row| !row.holds(&words));
        match wrong {
            Some(row) => words[row.dst] = row.rhs,
            None => return words,
        }
    }
}

/// The words of the constraints that are no definitions, in any order.
fn others(values: &Values<'_>) -> Vec<Vec<u64>> {
    let mut rows: Vec<Vec<u64>> = values.ands().map(|r| vec![0, r.a, r.b, r.c]).collect();
    rows.extend(values.imuls().map(|r| vec![1, r.a, r.b, r.hi, r.lo]));
    rows.extend(values.bmuls().map(|r| vec![2, r.a_lo, r.a_hi, r.b_lo, r.b_hi, r.c_lo, r.c_hi]));
    rows.extend(values.zeros().map(|r| vec![3, r.val]));
    rows.sort();
    rows
}

fn is_undone(fused: &Fused, dice: &mut Dice) {
    let words = satisfied(fused.before(), dice);
    let mut noisy = words.clone();
    for row in fused.before().lists().linears() {
        if !fused.is_committed(row.dst) {
            noisy[row.dst] = dice.word();
        }
    }
    // what was removed is not read
    assert_eq!(others(&fused.evaluate(&noisy).unwrap()), others(&fused.before().evaluate(&words).unwrap()));
    assert!(fused.evaluate(&words).unwrap().linears().all(|row| row.holds(&words)));
    // and comes back
    fused.fill_back(&mut noisy).unwrap();
    assert_eq!(noisy, words);
}

#[test]
fn undone() {
    let mut dice = Dice(0x1234_5678_9abc_def1);
    let (mut gone, mut stranded, mut committed) = (0, 0, 0);
    for _ in 0..400 {
        let system = system(&mut dice);
        assert_eq!(System::read(&system.write()).unwrap(), system);
        for slots in [Slots::One, Slots::Two] {
            let fused = system.clone().fuse(slots).unwrap();
            let counts = fused.counts();
            assert_eq!(fused.kept().count(), counts.kept);
            assert_eq!(fused.committed().count(), counts.committed);
            assert_eq!(fused.lists().linears().len(), counts.stranded + counts.committed);
            assert_eq!(system.lists().linears().len(), counts.gone + counts.stranded + counts.committed);
            is_undone(&fused, &mut dice);
            if let Ok(again) = System::read(&fused.write().unwrap()) {
                assert_eq!(again.lists(), fused.lists());
            }
            assert_eq!(fused.clone().into_before(), system);
            (gone, stranded, committed) =
                (gone + counts.gone, stranded + counts.stranded, committed + counts.committed);
        }
    }
    assert!(gone > 1000 && stranded > 100 && committed > 1000, "{gone} {stranded} {committed}");
}

/// 1,024 definitions, one in the other: the deepest there is, in a thread with Rust's usual stack.
#[test]
fn the_longest_chain() {
    let mut b = Builder::new();
    let x = b.wire();
    let mut last = x;
    for _ in 0..1024 {
        let d = b.wire();
        b.define(d, &[last.term()]);
        last = d;
    }
    b.zero(&[last.term()]);
    let fused = b.build().unwrap().fuse(Slots::One).unwrap();
    assert_eq!((fused.counts().gone, fused.counts().kept), (1024, 1));
    let mut words = fused.before().assignment();
    words[x] = 5;
    fused.fill_back(&mut words).unwrap();
    assert!(words.words().iter().all(|&word| word == 5));
}
