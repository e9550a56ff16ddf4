//! The faults that are looked for in memory, and their order.

use harness::{
    checks::check,
    generate,
    house::{self, CIRCLE, DOUBLE, EMPTY, FULL, SHIFT, SLOTS, TWICE, WIDE, WIRE},
    random::Random,
    system::{AND, Definition, System, Term, ZERO},
};

fn definition(dst: usize, rhs: &[Term]) -> Definition {
    Definition { dst: dst as u16, rhs: rhs.to_vec() }
}

/// Puts a fault into a good system by new wires and constraints, so that no fault undoes another.
fn plant(system: &mut System, refusal: u8) {
    let wire = system.wires;
    system.wires += 2;
    match refusal {
        TWICE => system.linears.extend([definition(wire, &[Term::plain(0)]), definition(wire, &[Term::plain(0)])]),
        EMPTY => system.linears.push(definition(wire, &[])),
        DOUBLE => system.linears.push(definition(wire, &[Term::new(0, 0, 1)])),
        CIRCLE => {
            let next = Term::plain(wire as u16 + 1);
            system.linears.extend([definition(wire, &[next]), definition(wire + 1, &[Term::plain(wire as u16)])]);
        }
        FULL => system.others[ZERO].resize(1100, vec![vec![]]),
        SHIFT => system.others[ZERO].push(vec![vec![Term::single(0, 288)]]),
        WIRE => system.others[AND].push(vec![vec![], vec![], vec![Term::plain(60_000)]]),
        _ => unreachable!("no such fault is planted"),
    }
}

/// Of several faults, the one that comes first in 01's order is given, at every set of faults.
#[test]
fn the_first_of_any_faults() {
    // In file order WIRE, planted in an And, comes before SHIFT, planted in a Zero.
    let order = [WIRE, SHIFT, FULL, TWICE, EMPTY, DOUBLE, CIRCLE];
    for set in 0..1 << order.len() {
        for seed in 0..4 {
            let mut system = generate::system(0, seed);
            let mut planted: Vec<u8> = (0..order.len()).filter(|at| set >> at & 1 == 1).map(|at| order[at]).collect();
            let expected = planted.first().copied();
            Random::new(seed).shuffle(&mut planted);
            for &refusal in &planted {
                plant(&mut system, refusal);
            }
            assert_eq!(check(&system, 2).err(), expected, "{planted:?}");
            let in_memory = matches!(expected, Some(WIRE | SHIFT | FULL));
            assert_eq!(check(&system, 3).err(), if in_memory { expected } else { Some(SLOTS) }, "{planted:?}");
        }
    }
}

#[test]
fn wire_inner_outer_in_each_term() {
    let refused = |terms: &[Term]| {
        let mut system = System::new(1);
        system.others[ZERO].push(vec![terms.to_vec()]);
        check(&system, 1).err()
    };
    assert_eq!(refused(&[Term::new(1, 600, 600)]), Some(WIRE));
    assert_eq!(refused(&[Term::new(0, 0, 600), Term::plain(1)]), Some(SHIFT));
    assert_eq!(refused(&[Term::plain(0), Term::plain(1), Term::single(0, 600)]), Some(WIRE));
    assert_eq!(refused(&[Term::new(0, 319, 0)]), Some(SHIFT));
    assert_eq!(refused(&[Term::new(0, 0, 287)]), None);
}

#[test]
fn a_destination_comes_before_its_right_side() {
    let mut system = System::new(1);
    system.linears.push(definition(1, &[Term::single(0, 600)]));
    assert_eq!(check(&system, 1), Err(WIRE));
}

/// Identities of any spelling are no second shift; undefined wires may have two in other constraints.
#[test]
fn what_is_not_double() {
    let mut system = System::new(2);
    system.linears.push(definition(1, &[Term::new(0, 64, 448)]));
    system.others[ZERO].push(vec![vec![Term::new(1, 1, 192), Term::new(0, 1, 65)]]);
    assert_eq!(check(&system, 1), Ok(()));
    system.others[ZERO].push(vec![vec![Term::new(1, 0, 65)]]);
    assert_eq!(check(&system, 1), Err(DOUBLE));
}

#[test]
fn circles_need_no_use() {
    let mut system = System::new(1);
    system.linears.push(definition(0, &[Term::plain(0)]));
    assert_eq!(check(&system, 1), Err(CIRCLE));
}

#[test]
fn a_record_is_too_wide_from_65536_bytes_on() {
    let with_terms = |count| {
        let mut system = System::new(1);
        system.others[ZERO].push(vec![vec![Term::plain(0); count]]);
        house::write(&system).map(|file| file.len())
    };
    assert_eq!(with_terms(10_922), Ok(5 + 3 + 2 + 6 * 10_922 + 3));
    assert_eq!(with_terms(10_923), Err(WIDE));
}
