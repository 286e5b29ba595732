//! How deep the calls go: each of them takes at most 88 KiB of stack, in the largest tables, on faces of 64 corners and at a vertex with more arcs than
//! are listed. The stack below a call is filled with one byte before it, and looked at after it.

use std::{hint, ptr, thread};
use ullarvesp::{Arc, FaceKey, Mesh, Move, VertexKey};

/// What a call may take.
const MOST: usize = 88 * 1024;

/// What is filled below a call, and with what; and what the thread has.
const FILLED: usize = 256 * 1024;
const BYTE: u8 = 0xA5;
const THREAD: usize = 2 * 1024 * 1024;

/// Fills the stack below its caller.
#[inline(never)]
fn fill() {
    let mut below = [0u8; FILLED];
    for place in &mut below {
        // Volatile, so that the bytes are written although nobody reads the array.
        unsafe { ptr::write_volatile(place, BYTE) };
    }
    hint::black_box(&below);
}

/// Makes a call, and tells how much of the stack below here it touched.
#[inline(never)]
fn held<T>(name: &str, call: impl FnOnce() -> T) -> T {
    let here = 0u8;
    let top = ptr::from_ref(hint::black_box(&here));
    fill();
    let answer = call();
    // The lowest byte that is not as it was filled; the bytes are this thread's own stack, all of them written by `fill`.
    let mut untouched = 4096;
    while untouched < FILLED && unsafe { ptr::read_volatile(top.sub(FILLED - untouched)) } == BYTE {
        untouched += 1;
    }
    let depth = FILLED - untouched;
    println!("stack of {name}: {:.1} KiB", depth as f64 / 1024.0);
    assert!(depth <= MOST, "{name} takes {depth} bytes of stack, more than {MOST}");
    answer
}

/// A face of 64 corners, the most that a face can have, on vertices of its own.
fn round_panel(mesh: &mut Mesh, height: f64) -> (FaceKey, Vec<VertexKey>) {
    let corner = |i: usize| [f64::from(i as u32 % 8), f64::from(i as u32 / 8), height];
    let corners: Vec<VertexKey> = (0..64).map(|i| mesh.vertex_insert(corner(i)).unwrap()).collect();
    (held("face insert", || mesh.face_insert(1, &corners)).unwrap(), corners)
}

/// Every edit and every query, in the largest tables and on the largest faces.
fn every_call(mut mesh: Mesh) {
    let (split, corners) = round_panel(&mut mesh, 0.0);
    held("face split", || mesh.face_split(split, corners[0], corners[32])).unwrap();
    let (poked, _) = round_panel(&mut mesh, 1.0);
    held("face poke", || mesh.face_poke(poked, [1.0, 2.0, 3.0])).unwrap();
    let (extruded, _) = round_panel(&mut mesh, 2.0);
    held("face extrude", || mesh.face_extrude(extruded, Move::Shift([0.0, 0.0, 9.0]))).unwrap();
    let (first, _) = round_panel(&mut mesh, 3.0);
    let (second, _) = round_panel(&mut mesh, 4.0);
    held("face bridge", || mesh.face_bridge(first, second)).unwrap();
    let (removed, ends) = round_panel(&mut mesh, 5.0);
    assert_eq!(held("arity", || mesh.face_arity(removed)), Ok(64));
    assert_eq!(held("face remove", || mesh.face_remove(removed)), Ok(1));
    let seam = held("arc extrude", || mesh.arc_extrude(Arc(ends[0], ends[1]), Move::Shift([0.0, 0.0, 1.0]))).unwrap();
    held("arc bridge", || mesh.arc_bridge(Arc(ends[32], ends[33]), Arc(seam.1, seam.0))).unwrap();
    held("check", || mesh.check()).unwrap();
    held("vertex insert", || mesh.vertex_insert([0.0, 0.0, 77.0])).unwrap();
}

/// An edit at a vertex with more seams than the library lists near an edit: it tests all tables once more.
fn edit_at_many_seams(mut mesh: Mesh) {
    let rim: Vec<VertexKey> = (0..1032).map(|i| mesh.vertex_insert([f64::from(i), 0.0, 0.0]).unwrap()).collect();
    let middle = mesh.vertex_insert([0.0, 1.0, 0.0]).unwrap();
    let panels: Vec<FaceKey> = rim.windows(2).map(|two| mesh.face_insert(1, &[middle, two[0], two[1]]).unwrap()).collect();
    held("face poke at many seams", || mesh.face_poke(panels[500], [1.0, 2.0, 3.0])).unwrap();
}

#[test]
fn calls_fit_into_their_stack() {
    for calls in [every_call, edit_at_many_seams] {
        let mesh = Mesh::new(4096, 8192, 4096).unwrap();
        thread::Builder::new().stack_size(THREAD).spawn(move || calls(mesh)).unwrap().join().unwrap();
    }
}
