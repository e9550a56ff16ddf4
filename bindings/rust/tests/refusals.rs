//! Each refusal that the types let one reach. SLOTS is not one of them: `Slots` is one or two.

use tiwzerand::{Assignment, Builder, Fault, Refusal, Shift, Slots, System, Term, Variant, Wire};

fn sll(amount: u8) -> Shift {
    Shift::new(Variant::Sll, amount).unwrap()
}

/// A field: tag, length, payload.
fn field(tag: u8, payload: &[u8]) -> Vec<u8> {
    [&[tag, payload.len() as u8, (payload.len() >> 8) as u8], payload].concat()
}

/// A file of three wires with these fields, and its end.
fn file(fields: &[Vec<u8>]) -> Vec<u8> {
    [field(1, &[3, 0]), fields.concat(), field(7, &[])].concat()
}

fn read(file: &[u8]) -> (Refusal, usize) {
    let Fault { refusal, offset } = System::read(file).unwrap_err();
    (refusal, offset)
}

#[test]
fn reading() {
    let zero = |wire: u8, inner: u16, outer: u16| {
        field(5, &[&[1, 0, wire, 0][..], &inner.to_le_bytes(), &outer.to_le_bytes()].concat())
    };
    assert!(System::read(&file(&[zero(2, 63, 63)])).is_ok());
    assert_eq!(read(&[]), (Refusal::Cut, 0));
    assert_eq!(read(&file(&[])[..6]), (Refusal::Cut, 5));
    assert_eq!(read(&field(2, &[])), (Refusal::Tag, 0));
    assert_eq!(read(&file(&[field(9, &[])])), (Refusal::Tag, 5));
    assert_eq!(read(&file(&[field(5, &[0, 0, 0])])), (Refusal::Shape, 5));
    assert_eq!(read(&[file(&[]), vec![0]].concat()), (Refusal::Shape, 8));
    assert_eq!(read(&file(&[zero(2, 0, 512)])), (Refusal::Shift, 5));
    assert_eq!(read(&file(&[zero(2, 288, 0)])), (Refusal::Shift, 5));
    assert_eq!(read(&file(&[zero(3, 0, 0)])), (Refusal::Wire, 5));
    assert_eq!(read(&[field(1, &[0, 0]), field(7, &[])].concat()), (Refusal::Full, 0));
    assert_eq!(read(&[field(1, &[1, 16]), field(7, &[])].concat()), (Refusal::Full, 0));
    assert_eq!(
        System::read(&[]).unwrap_err().to_string(),
        "refused 1 CUT: under 3 bytes left where a field must start, or payload beyond the input (at offset 0)"
    );
}

/// A definition of wire `dst` as one unshifted term, or none.
fn linear(dst: u8, wire: Option<u8>, outer: u8) -> Vec<u8> {
    match wire {
        Some(wire) => field(6, &[dst, 0, 1, 0, wire, 0, 0, 0, outer, 0]),
        None => field(6, &[dst, 0, 0, 0]),
    }
}

/// What fusing refuses of a file that is read, and that the system is then as it was.
fn fused(fields: &[Vec<u8>]) -> Refusal {
    let system = System::read(&file(fields)).unwrap();
    assert!(system.check().is_err());
    for slots in [Slots::One, Slots::Two] {
        let (back, refusal) = system.clone().fuse(slots).unwrap_err();
        assert_eq!(back, system);
        assert_eq!(Err(refusal), system.check());
    }
    assert_eq!(system.write(), file(fields));
    system.check().unwrap_err()
}

#[test]
fn fusing() {
    assert_eq!(fused(&[linear(1, Some(0), 0), linear(1, Some(2), 0)]), Refusal::Twice);
    assert_eq!(fused(&[linear(1, None, 0)]), Refusal::Empty);
    assert_eq!(fused(&[linear(1, Some(0), 1)]), Refusal::Double);
    assert_eq!(fused(&[linear(1, Some(2), 0), linear(2, Some(1), 0)]), Refusal::Circle);
}

#[test]
fn building() {
    let refused = |make: &dyn Fn(&mut Builder)| {
        let mut b = Builder::new();
        make(&mut b);
        b.build().unwrap_err()
    };
    let add = |b: &mut Builder, n: usize| {
        for _ in 0..n {
            b.wire();
        }
    };
    let outer = |wire: Wire| Term { outer: sll(1), ..wire.term() };
    assert_eq!(refused(&|b| b.zero(&[Wire::new(0).term()])), Refusal::Wire);
    assert_eq!(refused(&|_| ()), Refusal::Full);
    assert_eq!(refused(&|b| add(b, 4097)), Refusal::Full);
    assert_eq!(refused(&|b| add(b, 70_000)), Refusal::Full);
    let full = |b: &mut Builder, n: usize| {
        let x = b.wire();
        (0..n).for_each(|_| b.zero(&[x.term()]))
    };
    assert_eq!(refused(&|b| full(b, 1025)), Refusal::Full);
    assert_eq!(
        refused(&|b| {
            let [x, y] = b.wires();
            b.zero(&[x.term(); 8192]);
            b.zero(&[y.term()])
        }),
        Refusal::Full
    );
    assert_eq!(
        refused(&|b| {
            let [x, d] = b.wires();
            b.define(d, &[x.term()]);
            b.define(d, &[x.term()])
        }),
        Refusal::Twice
    );
    assert_eq!(
        refused(&|b| {
            let d = b.wire();
            b.define(d, &[])
        }),
        Refusal::Empty
    );
    assert_eq!(
        refused(&|b| {
            let [x, d] = b.wires();
            b.define(d, &[x.term()]);
            b.zero(&[outer(d)])
        }),
        Refusal::Double
    );
    assert_eq!(
        refused(&|b| {
            let d = b.wire();
            b.define(d, &[d.term()])
        }),
        Refusal::Circle
    );
    // and at the limits nothing is refused
    let mut b = Builder::new();
    full(&mut b, 1024);
    for _ in 0..1024 {
        let d = b.wire();
        b.define(d, &[Wire::new(0).term(); 7]);
    }
    add(&mut b, 3071);
    let system = b.build().unwrap();
    assert_eq!((system.lists().wires(), system.lists().linears().len()), (4096, 1024));
    assert_eq!(System::read(&system.write()).unwrap(), system);
}

/// A definition of `terms` terms, read `uses` times by one Zero.
fn wide(terms: usize, uses: usize) -> System {
    let mut b = Builder::new();
    let [x, d] = b.wires();
    b.define(d, &vec![x.term(); terms]);
    b.zero(&vec![d.term(); uses]);
    b.build().unwrap()
}

#[test]
fn room_and_width() {
    let system = wide(200, 82);
    let (back, refusal) = system.clone().fuse(Slots::Two).unwrap_err();
    assert_eq!((&back, refusal), (&system, Refusal::Room));

    let fused = wide(128, 128).fuse(Slots::Two).unwrap();
    assert_eq!(fused.counts().written, 16384);
    assert_eq!(fused.write(), Err(Refusal::Wide));
    // 65,534 payload bytes are written
    assert_eq!(wide(2, 5461).fuse(Slots::Two).unwrap().write().map(|file| file.len()), Ok(5 + 3 + 2 + 6 * 10922 + 3));
}

#[test]
fn sizes() {
    let system = wide(2, 2);
    let fused = system.clone().fuse(Slots::Two).unwrap();
    for n in [0, 1, 3] {
        let mut words = Assignment::new(vec![7; n]);
        assert_eq!(system.evaluate(&words).unwrap_err(), Refusal::Size);
        assert_eq!(fused.evaluate(&words).unwrap_err(), Refusal::Size);
        assert_eq!(fused.fill_back(&mut words), Err(Refusal::Size));
        assert_eq!(words, Assignment::new(vec![7; n]));
    }
}

#[test]
fn words_of_the_table() {
    assert_eq!((Refusal::Wide.number(), Refusal::Wide.name()), (14, "WIDE"));
    assert_eq!(Refusal::Circle.to_string(), "refused 11 CIRCLE: a definition reaches itself");
}
