//! Two neighbouring corners in one spot: 13, each case by itself. A refusal leaves every bit as it was.

use std::fmt::Debug;

use ullarvesp::{Arc, FaceKey, Mesh, Move, Refusal, VertexKey};

use crate::case::{same_bits, Case};
use crate::counts::Counts;
use crate::line::Line;

const NOTHING: Move = Move::Shift([0.0; 3]);

/// A mesh with vertices at these places.
fn drawn(places: &[[f64; 3]]) -> (Mesh, Vec<VertexKey>) {
    let mut mesh = Mesh::new(64, 128, 64).unwrap();
    let keys = places.iter().map(|place| mesh.vertex_insert(*place).unwrap()).collect();
    (mesh, keys)
}

/// Vertices 0 and 1 stand in one spot, the others apart; the mesh has no face yet.
fn two_in_one_spot() -> (Mesh, [VertexKey; 5]) {
    let (mesh, keys) = drawn(&[[5.0, 0.0, 0.0], [5.0, 0.0, 0.0], [9.0, 0.0, 0.0], [5.0, 6.0, 0.0], [0.0, 3.0, 0.0]]);
    (mesh, keys.try_into().unwrap())
}

/// The edit is refused so, and has changed nothing.
#[track_caller]
fn refused<T: Debug>(mesh: &mut Mesh, wanted: Refusal, edit: impl FnOnce(&mut Mesh) -> Result<T, Refusal>) {
    let (tables, counters) = (mesh.tables().clone(), mesh.counters());
    assert_eq!(edit(mesh).unwrap_err(), wanted);
    assert!(same_bits(&tables, mesh.tables()) && counters == mesh.counters(), "refused, and the mesh has changed");
}

#[track_caller]
fn hair<T: Debug>(mesh: &mut Mesh, edit: impl FnOnce(&mut Mesh) -> Result<T, Refusal>) {
    refused(mesh, Refusal::SamePlace, edit);
}

#[test]
fn neighbours_in_one_spot() {
    let (mut mesh, [a, b, c, d, _]) = two_in_one_spot();
    for keys in [vec![a, b, c], vec![c, b, a], vec![c, a, b, d], vec![d, c, b, a]] {
        hair(&mut mesh, |mesh| mesh.face_insert(7, &keys));
    }
}

#[test]
fn across_the_end() {
    let (mut mesh, [a, b, c, d, e]) = two_in_one_spot();
    for keys in [vec![a, c, b], vec![b, c, d, a], vec![a, d, e, c, b]] {
        hair(&mut mesh, |mesh| mesh.face_insert(7, &keys));
    }
}

#[test]
fn in_one_spot_and_no_neighbours() {
    let (mut mesh, [a, b, c, d, e]) = two_in_one_spot();
    mesh.face_insert(7, &[a, c, b, d]).unwrap();
    mesh.face_insert(7, &[e, d, b]).unwrap();
    // Nor does it matter that vertices stand in one spot that are on different faces.
    assert_eq!(mesh.faces().count(), 2);
}

#[test]
fn zero_and_minus_zero_are_one_spot() {
    let (mut mesh, v) = drawn(&[[0.0, -0.0, 3.0], [-0.0, 0.0, 3.0], [4.0, 0.0, 3.0], [0.0; 3], [-0.0; 3]]);
    hair(&mut mesh, |mesh| mesh.face_insert(7, &[v[0], v[1], v[2]]));
    hair(&mut mesh, |mesh| mesh.face_insert(7, &[v[3], v[2], v[4]]));
    let face = mesh.face_insert(7, &[v[0], v[3], v[2]]).unwrap();
    hair(&mut mesh, |mesh| mesh.face_poke(face, [-0.0, -0.0, -0.0]));
    hair(&mut mesh, |mesh| mesh.face_extrude(face, Move::Shift([-0.0, 0.0, -0.0])));
}

#[test]
fn two_equal_coordinates_are_apart() {
    let (mut mesh, v) = drawn(&[[1.0, 2.0, 3.0], [1.0, 2.0, 4.0], [1.0, 5.0, 4.0], [7.0, 5.0, 4.0], [7.0, 2.0, 4.0], [7.0, 2.0, 3.0]]);
    mesh.face_insert(7, &v).unwrap();
    let (mut mesh, v) = drawn(&[[1.0, 0.0, 3.0], [1.0 + f64::EPSILON, 0.0, 3.0], [1.0, 5e-324, 3.0], [1.0, -5e-324, 3.0]]);
    mesh.face_insert(7, &v).unwrap();
}

#[test]
fn after_3_and_4_and_before_both_5() {
    let (mut mesh, [a, b, c, d, e]) = two_in_one_spot();
    let unknown = VertexKey(99);
    mesh.face_insert(7, &[a, c, d]).unwrap();
    for keys in [vec![a, b], vec![a, a, b], vec![a, b, c, a], vec![a, b, unknown, unknown]] {
        refused(&mut mesh, Refusal::TopologyMalformed, |mesh| mesh.face_insert(7, &keys));
    }
    for keys in [vec![a, b, unknown], vec![unknown, a, c, b]] {
        refused(&mut mesh, Refusal::TopologyNotFound, |mesh| mesh.face_insert(7, &keys));
    }
    // The arc (a,c) has a face.
    refused(&mut mesh, Refusal::TopologyConflict, |mesh| mesh.face_insert(7, &[a, c, e]));
    hair(&mut mesh, |mesh| mesh.face_insert(7, &[a, c, b]));
    // Next of (c,a) arrives at d.
    refused(&mut mesh, Refusal::TopologyConflict, |mesh| mesh.face_insert(7, &[c, a, e, d]));
    hair(&mut mesh, |mesh| mesh.face_insert(7, &[c, a, b, d]));
}

/// In full tables an insert and an arc bridge are refused as with room; an edit that would come to its 13 later has no room first.
#[test]
fn before_7_in_an_insert_and_after_it_in_mid_edit() {
    let mut mesh = Mesh::new(4, 3, 1).unwrap();
    let places = [[5.0, 0.0, 0.0], [5.0, 0.0, 0.0], [9.0, 0.0, 0.0], [5.0, 6.0, 0.0]];
    let v: Vec<VertexKey> = places.iter().map(|place| mesh.vertex_insert(*place).unwrap()).collect();
    let face = mesh.face_insert(7, &[v[0], v[2], v[3]]).unwrap();
    hair(&mut mesh, |mesh| mesh.face_insert(7, &[v[2], v[0], v[1]]));
    refused(&mut mesh, Refusal::NoRoom, |mesh| mesh.face_poke(face, places[0]));
    refused(&mut mesh, Refusal::NoRoom, |mesh| mesh.face_extrude(face, NOTHING));
    refused(&mut mesh, Refusal::NoRoom, |mesh| mesh.arc_extrude(Arc(v[2], v[0]), NOTHING));
}

#[test]
fn a_poke_at_a_corner() {
    let (mut mesh, [a, _, c, d, e]) = two_in_one_spot();
    let face = mesh.face_insert(7, &[a, c, d, e]).unwrap();
    for corner in [a, c, d, e] {
        let place = mesh.vertex(corner).unwrap().position;
        hair(&mut mesh, |mesh| mesh.face_poke(face, place));
    }
    refused(&mut mesh, Refusal::Argument, |mesh| mesh.face_poke(face, [f64::NAN, 0.0, 0.0]));
    mesh.face_poke(face, [5.0, 6.0, 1.0]).unwrap();
}

#[test]
fn an_extrude_that_moves_nothing_or_brings_corners_together() {
    let (mut mesh, [a, _, c, d, _]) = two_in_one_spot();
    let face = mesh.face_insert(7, &[a, c, d]).unwrap();
    hair(&mut mesh, |mesh| mesh.face_extrude(face, NOTHING));
    // Corner c is the centre, so it stays where it is.
    hair(&mut mesh, |mesh| mesh.face_extrude(face, Move::Scale { centre: [9.0, 0.0, 0.0], factor: 3.0 }));
    hair(&mut mesh, |mesh| mesh.face_extrude(face, Move::Scale { centre: [1.0, 2.0, 3.0], factor: 1.0 }));
    hair(&mut mesh, |mesh| mesh.face_extrude(face, Move::Scale { centre: [1.0, 2.0, 3.0], factor: 0.0 }));
    // 2 for a moved coordinate comes before it.
    refused(&mut mesh, Refusal::Argument, |mesh| mesh.face_extrude(face, Move::Scale { centre: [-f64::MAX, 0.0, 0.0], factor: 2.0 }));
    mesh.face_extrude(face, Move::Shift([0.0, 0.0, 5e-324])).unwrap();

    let (mut mesh, v) = drawn(&[[1e17, 1e17, 0.0], [2e17, 1e17, 0.0], [1e17, 2e17, 0.0]]);
    let face = mesh.face_insert(7, &v).unwrap();
    hair(&mut mesh, |mesh| mesh.face_extrude(face, Move::Shift([1.0, 1.0, 0.0])));
}

#[test]
fn an_arc_extrude_that_moves_nothing_or_brings_ends_together() {
    let (mut mesh, [a, _, c, d, _]) = two_in_one_spot();
    mesh.face_insert(7, &[a, c, d]).unwrap();
    let (taken, seam) = (Arc(a, c), Arc(c, a));
    refused(&mut mesh, Refusal::TopologyConflict, |mesh| mesh.arc_extrude(taken, NOTHING));
    hair(&mut mesh, |mesh| mesh.arc_extrude(seam, NOTHING));
    hair(&mut mesh, |mesh| mesh.arc_extrude(seam, Move::Scale { centre: [5.0, 0.0, 0.0], factor: 2.0 }));
    hair(&mut mesh, |mesh| mesh.arc_extrude(seam, Move::Scale { centre: [1.0, 2.0, 3.0], factor: 0.0 }));
    // A shift along the seam by its length: a corner's copy stands where the other corner is, which is no neighbour of it.
    mesh.arc_extrude(seam, Move::Shift([4.0, 0.0, 0.0])).unwrap();
}

#[test]
fn a_split_whose_new_seam_is_a_hair() {
    let (mut mesh, [a, b, c, d, _]) = two_in_one_spot();
    let face = mesh.face_insert(7, &[a, c, b, d]).unwrap();
    hair(&mut mesh, |mesh| mesh.face_split(face, a, b));
    hair(&mut mesh, |mesh| mesh.face_split(face, b, a));
    refused(&mut mesh, Refusal::TopologyMalformed, |mesh| mesh.face_split(face, a, c));
    mesh.face_split(face, c, d).unwrap();
}

#[test]
fn an_arc_bridge_behind_its_own_5_and_3() {
    let (mut mesh, [a, b, c, d, e]) = two_in_one_spot();
    let f = mesh.vertex_insert([9.0, 9.0, 9.0]).unwrap();
    mesh.face_insert(7, &[a, c, d]).unwrap();
    mesh.face_insert(7, &[b, e, f]).unwrap();
    refused(&mut mesh, Refusal::TopologyNotFound, |mesh| mesh.arc_bridge(Arc(c, a), Arc(b, c)));
    refused(&mut mesh, Refusal::TopologyConflict, |mesh| mesh.arc_bridge(Arc(c, a), Arc(b, e)));
    refused(&mut mesh, Refusal::TopologyMalformed, |mesh| mesh.arc_bridge(Arc(c, a), Arc(a, d)));
    hair(&mut mesh, |mesh| mesh.arc_bridge(Arc(c, a), Arc(b, f)));
    mesh.arc_bridge(Arc(c, a), Arc(e, b)).unwrap();
}

/// Two faces that stand in one place, one upon the other, and one above them.
#[test]
fn a_bridge_of_corners_in_one_spot() {
    let low = [[0.0, 0.0, 0.0], [4.0, 0.0, 0.0], [0.0, 4.0, 0.0]];
    let high = low.map(|[x, y, _]| [x, y, 4.0]);
    let (mut mesh, v) = drawn(&[low, low, high].concat());
    let first = mesh.face_insert(7, &[v[0], v[1], v[2]]).unwrap();
    let second = mesh.face_insert(7, &[v[3], v[5], v[4]]).unwrap();
    let third = mesh.face_insert(7, &[v[6], v[8], v[7]]).unwrap();
    hair(&mut mesh, |mesh| mesh.face_bridge(first, second));
    mesh.face_bridge(first, third).unwrap();
}

/// A hair at one wall of a bridge, and another refusal at that wall, at one before it or at one behind it. Each is held to the Rust, whose
/// refusal stands where it comes first.
#[test]
fn a_bridge_with_another_refusal() {
    let bridges = [
        (3, "v 4 4 4, v 0 4 0, v 9 1 7, v 0 0 0, v 0 0 0, v 9 1 7, f 7 5 1 4, f 7 1 3 2, b 0 1"),
        (5, "v 0 4 0, v 4 0 0, v 0 0 0, v 0 4 0, v 4 4 4, v 4 4 4, v 8 8 1, f 7 2 4 3, f 7 5 0 6, f 7 5 2 0, b 0 1"),
        (3, "v 0 0 0, v 0 0 0, v 4 0 0, v 0 4 0, v 4 4 4, f 7 4 0 3, f 7 4 3 0, b 0 1"),
        (5, "v 8 8 1, v 0 4 0, v 4 0 0, v 4 4 4, v 0 4 0, v 9 1 7, f 7 4 0 5, f 7 2 5 0, f 7 3 2 4, b 0 1"),
        (13, "v 4 4 4, v 9 1 7, v 4 4 4, v 0 4 0, v 9 1 7, f 7 4 3 0, f 7 1 3 2, b 0 1"),
        (13, "v 4 0 0, v 8 8 1, v 4 4 4, v 0 4 0, v 4 0 0, f 7 0 2 1, f 7 4 1 3, b 0 1"),
        (13, "v 4 0 0, v 0 4 0, v 4 0 0, v 4 4 4, v 0 0 0, v 0 0 0, f 7 4 3 1, f 7 5 0 1, b 0 1"),
    ];
    for (wanted, script) in bridges {
        let mut case = Case::new([64, 128, 64]);
        case.lines = script.split(", ").map(|text| Line::read(text).unwrap()).collect();
        case.hold(&mut Counts::default());
        let mut lending = case.lending();
        let numbers: Vec<u32> = case.lines.iter().map(|line| line.call(&mut lending).number).collect();
        assert_eq!(numbers.last(), Some(&wanted), "{script}");
        assert!(numbers[..numbers.len() - 1].iter().all(|number| *number == 0), "{script}");
    }
}

/// Tables of a caller's own may have a face with two corners in one spot: they are sound, and the face can go. What would put in a face with
/// that seam is refused.
#[test]
fn a_hair_that_is_there_already() {
    let (mut mesh, [a, b, c, d, _]) = two_in_one_spot();
    let face = mesh.face_insert(7, &[a, c, b, d]).unwrap();
    let (mut tables, counters) = (mesh.tables().clone(), mesh.counters());
    tables.positions[c.0 as usize] = tables.positions[a.0 as usize];
    let mut mesh = Mesh::from_tables(tables, counters).unwrap();
    hair(&mut mesh, |mesh| mesh.face_poke(face, [1.0, 2.0, 3.0]));
    hair(&mut mesh, |mesh| mesh.face_split(face, c, d));
    hair(&mut mesh, |mesh| mesh.face_extrude(face, Move::Shift([0.0, 0.0, 1.0])));
    hair(&mut mesh, |mesh| mesh.arc_extrude(Arc(c, a), Move::Shift([0.0, 0.0, 1.0])));
    mesh.arc_extrude(Arc(a, d), Move::Shift([0.0, 0.0, 1.0])).unwrap();
    assert_eq!(mesh.face_remove(face), Ok(7));
    hair(&mut mesh, |mesh| mesh.face_insert(7, &[a, c, b, d]));
    assert_eq!(mesh.faces().map(|face| face.key).collect::<Vec<_>>(), [FaceKey(1)]);
}
