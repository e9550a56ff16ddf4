//! What a pipeline does between the circuit builder and the prover.
//!
//! The circuit: two acquisitions of liver fat are packed into one word, and two constraints unpack them. Acquisition B failed, so its mask is
//! 0 and it is left out. It must not come out as "no fat": a word that is missing is computed from its definition, never taken for 0.

use std::error::Error;
use tiwzerand::{And, Assignment, Builder, Fused, Lists, Refusal, Shift, Slots, System, Variant, Wire};

/// The wires that the scanner's words go to, and the one that is defined.
struct Circuit {
    system: System,
    fat_a: Wire,
    fat_b: Wire,
    good_b: Wire,
    packed: Wire,
    ones: Wire,
    out_a: Wire,
    out_b: Wire,
}

/// The circuit builder.
fn circuit() -> Result<Circuit, Refusal> {
    let up = Shift::new(Variant::Sll, 32)?;
    let down = Shift::new(Variant::Slr, 32)?;
    let mut b = Builder::new();
    let [fat_a, fat_b, good_b, packed, ones, out_a, out_b] = b.wires();
    b.define(packed, &[fat_a.term(), fat_b.shifted(up)]);
    b.and(And { a: &[packed.shifted(up)], b: &[ones.term()], c: &[out_a.term()] });
    b.and(And { a: &[packed.shifted(down)], b: &[good_b.term()], c: &[out_b.term()] });
    Ok(Circuit { system: b.build()?, fat_a, fat_b, good_b, packed, ones, out_a, out_b })
}

/// A stand-in for the prover: it is handed the patched lists and the words of the kept wires, and proves nothing that does not hold.
fn prove(lists: Lists<'_>, kept: &[Wire], words: &Assignment) -> Result<bool, Refusal> {
    let values = lists.evaluate(words)?;
    let holds = values.ands().all(|row| row.holds())
        && values.zeros().all(|row| row.holds())
        && values.linears().all(|row| row.holds(words));
    println!("prover: {} wires kept, {} Ands, {} definitions", kept.len(), lists.ands().len(), lists.linears().len());
    for row in lists.ands() {
        println!("    And: a = {}, b = {}, c = {}", row.a, row.b, row.c);
    }
    Ok(holds)
}

fn main() -> Result<(), Box<dyn Error>> {
    let Circuit { system, fat_a, fat_b, good_b, packed, ones, out_a, out_b } = circuit()?;

    // Between the two: fuse. A system that is refused comes back unchanged, to be proved unfused or looked into.
    let fused: Fused = match system.fuse(Slots::Two) {
        Ok(fused) => fused,
        Err((unchanged, refusal)) => return Err(format!("{refusal}; {unchanged:?} is as it was").into()),
    };
    println!("{:?}", fused.counts());

    // The scanner's words. Nothing is stored for the packed word: noise stands in its place.
    let mut words = fused.before().assignment();
    words[fat_a] = 0x39; // 5.7 percent
    words[fat_b] = 0xffff; // what the scanner left of the failed acquisition
    words[good_b] = 0;
    words[ones] = u64::MAX;
    words[out_a] = 0x39 << 32;
    words[out_b] = 0;
    words[packed] = 0xdead_beef;

    let kept: Vec<Wire> = fused.kept().collect();
    assert!(!kept.contains(&packed));
    assert!(prove(fused.lists(), &kept, &words)?, "the constraints hold");

    // After the proof: the word that was not stored.
    fused.fill_back(&mut words)?;
    assert_eq!(words[packed], 0x0000_ffff_0000_0039);
    println!("filled back: packed is {:#018x}", words[packed]);

    // Every constraint of the circuit as it was built holds of all words.
    let values = fused.before().evaluate(&words)?;
    assert!(values.ands().all(|row| row.holds()) && values.linears().all(|row| row.holds(&words)));

    // The fused lists for the archive.
    println!("{} bytes before, {} after", fused.before().write().len(), fused.write()?.len());
    Ok(())
}
