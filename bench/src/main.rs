//! Times every edit and every query on this library and, from the same program, on plexus, at three sizes of tables, half full and nearly full.
//!
//! Plexus is timed twice: bare, and as it has to be used for the same promise, that a refused edit has changed nothing and an accepted one
//! leaves a sound mesh: after the edit all records are read out, document 01's Sound is tested on them, and on a refusal the graph is made
//! anew from the records of the mesh before it. (A graph of plexus can't be cloned. The records read out after one edit are the copy that the
//! next one needs, so a call reads out once.) The floor is reading the same tables once, timed in the same turns, and by itself, as copying is.
//!
//! Medians, in microseconds, of the processor's time. BENCH_MS (default 150) is the time spent on each figure. Built and run by `make bench`.

mod cloth;
mod ours;
mod theirs;
mod timing;

// Plexus as the oracle has it, unchanged, at the root of this crate, where its sources expect to be.
#[allow(warnings)]
#[rustfmt::skip]
#[path = "../../target/plexus/src/buffer.rs"]
mod buffer;
#[allow(warnings)]
#[rustfmt::skip]
#[path = "../../target/plexus/src/builder.rs"]
mod builder;
#[allow(warnings)]
#[rustfmt::skip]
#[path = "../../target/plexus/src/calls.rs"]
mod calls;
#[allow(warnings)]
#[rustfmt::skip]
#[path = "../../target/plexus/src/constant.rs"]
mod constant;
#[allow(warnings)]
#[rustfmt::skip]
#[path = "../../target/plexus/src/encoding.rs"]
mod encoding;
#[allow(warnings)]
#[rustfmt::skip]
#[path = "../../target/plexus/src/entity/mod.rs"]
mod entity;
#[allow(warnings)]
#[rustfmt::skip]
#[path = "../../target/plexus/src/geometry/mod.rs"]
mod geometry;
#[allow(warnings)]
#[rustfmt::skip]
#[path = "../../target/plexus/src/graph/mod.rs"]
mod graph;
#[allow(warnings)]
#[rustfmt::skip]
#[path = "../../target/plexus/src/index.rs"]
mod index;
#[allow(warnings)]
#[rustfmt::skip]
#[path = "../../target/plexus/src/primitive.rs"]
mod primitive;
#[allow(warnings)]
#[rustfmt::skip]
#[path = "../../target/plexus/src/records.rs"]
mod records;
#[allow(warnings)]
#[rustfmt::skip]
#[path = "../../target/plexus/src/root.rs"]
mod root;
#[allow(warnings)]
#[rustfmt::skip]
#[path = "../../target/plexus/src/sound.rs"]
mod sound;
#[allow(warnings)]
#[rustfmt::skip]
#[path = "../../target/plexus/src/transact.rs"]
mod transact;
#[allow(unused_imports)]
pub use crate::root::{DynamicArity, FromItems, IteratorExt, MeshArity, StaticArity};

use cloth::{Asked, Cloth};
use ours::Ours;
use theirs::Theirs;
use timing::{median, time, Budget};

/// Vertices, edges and faces of the tables; half full or nearly; the cloth's width and height.
const STATES: [([usize; 3], &str, [u32; 2]); 6] = [
    ([64, 128, 64], "half full", [4, 3]),
    ([64, 128, 64], "nearly full", [7, 5]),
    ([512, 1024, 512], "half full", [14, 15]),
    ([512, 1024, 512], "nearly full", [21, 21]),
    ([4096, 8192, 4096], "half full", [44, 44]),
    ([4096, 8192, 4096], "nearly full", [62, 63]),
];

fn main() {
    println!(
        "Medians in microseconds. plexus*: with its records read out and Sound tested after each edit, and made anew after a refusal."
    );
    for (sizes, fill, [width, height]) in STATES {
        let cloth = Cloth::woven(width, height);
        state(sizes, fill, &cloth);
    }
}

fn state(sizes: [usize; 3], fill: &str, cloth: &Cloth) {
    let mut ours = Ours::new(cloth, sizes);
    let mut theirs = Theirs::new(cloth);
    let (read, copy) = floors(&ours);
    let [v, e, f] = sizes;
    println!(
        "\n{v}/{e}/{f}, {fill}: {} vertices, {} edges, {} faces; read once {read:.1}, copied once {copy:.1}\n",
        cloth.used()[0],
        cloth.used()[1],
        cloth.used()[2]
    );
    println!("| call | answer | this library | read once | library / read once | plexus* | library / plexus* | plexus bare |");
    println!("|---|---|---|---|---|---|---|---|");
    for (name, asked) in cloth.calls() {
        row(name, &asked, &mut ours, &mut theirs);
    }
}

/// Times the call on all three in turns, so that what else the machine does falls on all alike. The call of the library and reading the tables
/// each come after a call of plexus, which drives the tables out of the near cache.
fn row(name: &str, asked: &Asked, ours: &mut Ours, theirs: &mut Theirs) {
    let (mut library, mut read, mut promised, mut bare) = (vec![], vec![], vec![], vec![]);
    let mut answers = [0; 2];
    let budget = Budget::new();
    while budget.left(library.len()) {
        let (number, took) = ours.ask(asked);
        library.push(took);
        answers[0] = number;
        let (number, took) = theirs.ask(asked);
        promised.push(took);
        answers[1] = number;
        if let Some(took) = theirs.bare(asked) {
            bare.push(took);
        }
        ours.put_back();
        read.push(time(|| ours.read_once()).1);
        promised.push(theirs.ask(asked).1);
    }
    assert_eq!(answers[0], answers[1], "{name}: the two answer differently");
    let (library, read, promised) = (median(&mut library), median(&mut read), median(&mut promised));
    let bare = if bare.is_empty() { "-".into() } else { format!("{:.1}", median(&mut bare)) };
    println!(
        "| {name} | {} | {library:.1} | {read:.1} | {:.1} | {promised:.1} | {:.2} | {bare} |",
        answers[0],
        library / read,
        library / promised
    );
}

fn floors(ours: &Ours) -> (f64, f64) {
    let (mut read, mut copy) = (vec![], vec![]);
    let mut into = ours.tables().clone();
    let budget = Budget::new();
    while budget.left(read.len()) {
        read.push(time(|| ours.read_once()).1);
        copy.push(time(|| ours.copy_once(&mut into)).1);
    }
    (median(&mut read), median(&mut copy))
}
