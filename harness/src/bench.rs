//! The real circuits: their sizes, whether they are right, and the time that fusing one takes, by the Rust and by the project's own library.
//!
//! What is timed is the pass alone, from built lists to patched lists. Before each call and outside the time, the Rust's lists are built
//! anew, and ours are copied back to where they stood. Nothing else is cleared: the stores of new terms and flags are lent as the call
//! before left them. What a side clears or allocates itself is in its time: the library's local stores, the Rust's maps and graph.

use std::{hint::black_box, time::Instant};

use binius_frontend::lower::ConstraintBuilder;

use crate::{
    circuits::{CIRCUITS, Circuit, Sized},
    compare::{Totals, faults_of},
    evaluate::broken,
    library::{self, DefinitionsMut, Library, ListsMut},
    oracle,
    ours::Image,
    outcome::{Fused, Outcome},
    random::Random,
    system::{MAX_WIRES, MAX_WRITTEN, System},
};

/// Everything that is wrong about a circuit, in words: its outputs, its constraints before and after fusing, and fusing it.
pub fn faults_of_circuit(circuit: &Circuit) -> Vec<String> {
    let mut faults = faults_of(&circuit.system, &mut Totals::default());
    if circuit.output_words() != circuit.expected {
        faults.push("the outputs are not the plain ones".into());
    }
    faults.extend(broken(&circuit.system, &circuit.words));
    for slots in 1..=2 {
        match oracle::fuse(&circuit.system, slots, MAX_WRITTEN) {
            Outcome::Fused(fused) => faults.extend(broken(&fused.system, &circuit.words)),
            other => faults.push(format!("slots {slots}: {other:?}")),
        }
    }
    faults
}

/// The project's own pass over stores that stay where they are.
struct OurPass {
    library: Library,
    image: Image,
    lists: Image,
    new: Vec<u64>,
    flags: Vec<u8>,
    values: [u64; 5],
}

impl OurPass {
    fn of(library: &Library, system: &System) -> Self {
        let image = Image::of(system);
        let lists = image.clone();
        Self { library: *library, image, lists, new: vec![0; MAX_WRITTEN], flags: vec![0; MAX_WIRES], values: [0; 5] }
    }

    fn restore(&mut self) {
        for (list, image) in self.lists.rows.iter_mut().zip(&self.image.rows) {
            list.copy_from_slice(image);
        }
        self.lists.dsts.copy_from_slice(&self.image.dsts);
        self.lists.rhss.copy_from_slice(&self.image.rhss);
    }

    /// Apart, so that its instructions can be counted by its name.
    #[inline(never)]
    fn pass_of_ours(&mut self, slots: usize) {
        let lists = ListsMut {
            rows: self.lists.rows.each_mut().map(Vec::as_mut_slice),
            definitions: DefinitionsMut::Numbers(&mut self.lists.dsts, &mut self.lists.rhss),
        };
        let old = &self.image.old;
        let sizes = self.image.sizes;
        let answer =
            self.library.fuse(old, &mut self.new, lists, &mut self.flags, sizes, slots as u64, &mut self.values);
        assert_eq!(answer, 0, "circuits are accepted");
    }
}

#[inline(never)]
fn pass_of_rust(builder: &mut ConstraintBuilder, slots: usize) {
    oracle::fuse_in_place(builder, slots);
}

fn microseconds_of(pass: impl FnOnce()) -> f64 {
    let start = Instant::now();
    pass();
    start.elapsed().as_secs_f64() * 1e6
}

/// Best and median of some times.
#[derive(Copy, Clone)]
struct Times {
    best: f64,
    median: f64,
}

impl Times {
    fn of(mut times: Vec<f64>) -> Self {
        times.sort_unstable_by(f64::total_cmp);
        Self { best: times[0], median: times[times.len() / 2] }
    }
}

/// Both passes by turns; ours only where the library is linked.
fn times_of(system: &System, slots: usize, repeats: usize) -> (Times, Option<Times>) {
    let mut ours = library::linked().map(|library| OurPass::of(library, system));
    let (mut of_rust, mut of_ours) = (Vec::new(), Vec::new());
    for _ in 0..repeats {
        let mut builder = oracle::builder_of(system);
        of_rust.push(microseconds_of(|| pass_of_rust(&mut builder, slots)));
        black_box(builder);
        if let Some(ours) = &mut ours {
            ours.restore();
            of_ours.push(microseconds_of(|| ours.pass_of_ours(slots)));
            black_box(&ours.new);
        }
    }
    (Times::of(of_rust), ours.map(|_| Times::of(of_ours)))
}

/// Prints a row for each circuit and number of slots; false if something is wrong with one.
pub fn bench(repeats: usize) -> bool {
    print!("circuit | size | wires | definitions | others | terms | slots | committed | gone | stranded | written");
    println!(" | Rust best us | median | ours best us | median | Rust / ours, best | median");
    let mut good = true;
    for sized in &CIRCUITS {
        let size = sized.greatest();
        let circuit = (sized.build)(size, &mut Random::new(1));
        for fault in faults_of_circuit(&circuit) {
            println!("difference: {}: {fault}", sized.name);
            good = false;
        }
        for slots in 1..=2 {
            print_row(sized, size, &circuit, slots, repeats);
        }
    }
    good
}

fn print_row(sized: &Sized, size: usize, circuit: &Circuit, slots: usize, repeats: usize) {
    let system = &circuit.system;
    let Outcome::Fused(Fused { committed, gone, stranded, written, .. }) = oracle::fuse(system, slots, MAX_WRITTEN)
    else {
        return;
    };
    let (rust, ours) = times_of(system, slots, repeats);
    print!(
        "{} | {size} {} | {} | {} | {} | {} | {slots} | {} | {} | {} | {written} | {:.1} | {:.1}",
        sized.name,
        sized.unit,
        system.wires,
        system.linears.len(),
        system.other_count(),
        system.term_count(),
        committed.len(),
        gone.len(),
        stranded.len(),
        rust.best,
        rust.median,
    );
    if let Some(ours) = ours {
        let ratios = [rust.best / ours.best, rust.median / ours.median];
        print!(" | {:.1} | {:.1} | {:.2} | {:.2}", ours.best, ours.median, ratios[0], ratios[1]);
    }
    println!();
}

/// So many passes of one side over one circuit, for counting instructions. Nothing if there is no such circuit or side.
pub fn bench_one(name: &str, slots: usize, side: &str, passes: usize) -> Option<()> {
    let sized = CIRCUITS.iter().find(|sized| sized.name == name)?;
    let circuit = (sized.build)(sized.greatest(), &mut Random::new(1));
    match side {
        "rust" => {
            for _ in 0..passes {
                let mut builder = oracle::builder_of(&circuit.system);
                pass_of_rust(&mut builder, slots);
                black_box(builder);
            }
        }
        "ours" => {
            let mut ours = OurPass::of(library::linked()?, &circuit.system);
            for _ in 0..passes {
                ours.restore();
                ours.pass_of_ours(slots);
                black_box(&ours.new);
            }
        }
        _ => return None,
    }
    Some(())
}
