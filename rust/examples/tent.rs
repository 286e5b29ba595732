//! A small tent drawn from Rust: four corners at the eaves, a roof poked up to its top, a valance hung from each eave. Prints the panels.
//! examples/tent.c draws the same tent. `make examples` builds and runs both, and compares with examples/tent.out what they print.

use ullarvesp::{Arc, Face, FaceKey, Mesh, Move, Refusal};

fn print_counts(tent: &Mesh) {
    println!("{} panels, {} seams, {} corners", tent.faces().count(), tent.edges().count(), tent.vertices().count());
}

/// A panel: its key, its mark, and the corners of its ring with their positions.
fn print_panel(tent: &Mesh, panel: Face) -> Result<(), Refusal> {
    print!("panel {}, mark {}:", panel.key, panel.mark);
    for corner in tent.ring(panel.key)? {
        let [x, y, z] = corner.position;
        print!(" {} ({x}, {y}, {z})", corner.key);
    }
    println!();
    Ok(())
}

fn main() -> Result<(), Refusal> {
    let mut tent = Mesh::new(64, 128, 64)?;
    let eaves = [[0.0, 0.0, 2.0], [4.0, 0.0, 2.0], [4.0, 4.0, 2.0], [0.0, 4.0, 2.0]];

    let mut corners = Vec::new();
    for position in eaves {
        corners.push(tent.vertex_insert(position)?);
    }
    let roof = tent.face_insert(7, &corners)?;
    let top = tent.face_poke(roof, [2.0, 2.0, 3.5])?;
    println!("the top is corner {top}");

    // A valance hangs from the side of the eave that has no panel: against the order of the roof's corners.
    for i in 0..4 {
        let eave = Arc(corners[(i + 1) % 4], corners[i]);
        tent.arc_extrude(eave, Move::Shift([0.0, 0.0, -0.5]))?;
    }
    print_counts(&tent);

    // Two panels that share a seam can't be bridged. The refusal changes nothing.
    if let Err(refusal) = tent.face_bridge(FaceKey(1), FaceKey(2)) {
        println!("bridge of panels 1 and 2: refused, {}", refusal.number());
    }
    print_counts(&tent);

    for panel in tent.faces() {
        print_panel(&tent, panel)?;
    }
    println!("finished: {}", if tent.check().is_ok() { "yes" } else { "no" });
    Ok(())
}
