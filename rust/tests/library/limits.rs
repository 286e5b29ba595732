//! Sizes: rooms too small and rooms too large, tables at and over the limits, tables of no rows, and what the crate's own types make of them.

use ullarvesp::{calls, Mesh, Refusal, Tables};

use crate::case::{all_zero, fill_with_rubbish, room, same_bits, Case};
use crate::counts::Counts;
use crate::generate::{self, every_edit, filled};
use crate::line::{Lending, Line};
use crate::repeat;
use crate::rng::Rng;
use crate::scripts::disturbed;

/// Calls one after another over the same lending, each answered 1 with every bit as it was.
fn all_refused(before: &Lending, lines: &[Line], counts: &mut Counts, what: &str) {
    for line in lines {
        let mut lending = before.clone();
        let reply = line.call(&mut lending);
        counts.answered(line.letter(), reply.number);
        assert_eq!(reply, calls::Reply { number: 1, ..Default::default() }, "{what}: {line}");
        assert!(same_bits(&lending.tables, &before.tables) && lending.counters == before.counters, "{what}: {line}: the mesh");
        assert!(same_bits(&lending.one, &before.one) && same_bits(&lending.two, &before.two), "{what}: {line}: the rooms");
    }
}

#[test]
fn rooms_too_small() {
    repeat("rooms too small", 0.2, |rng, counts| {
        let case = disturbed(rng, [20, 40, 20]);
        let edits = every_edit(rng, &case.start);
        for table in 0..5 {
            for which in 0..2 {
                let mut lending = Case { extra: [3; 5], ..case.clone() }.lending();
                let small = if which == 0 { &mut lending.one } else { &mut lending.two };
                match table {
                    0 => small.vertices.truncate(19),
                    1 => small.positions.truncate(rng.pick(&[0, 19])),
                    2 => small.arcs.truncate(79),
                    3 => small.edges.truncate(39),
                    _ => small.faces.truncate(19),
                }
                fill_with_rubbish(rng, &mut lending.one);
                fill_with_rubbish(rng, &mut lending.two);
                all_refused(&lending, &edits, counts, "a room too small");
            }
        }
    });
}

/// Beyond the limits in every table: the mesh must not grow into it, and every row ends zero.
#[test]
fn rooms_beyond_the_limits() {
    let counts = repeat("rooms beyond the limits", 0.1, |rng, counts| {
        let mut case = disturbed(rng, [12, 20, 8]);
        case.extra = [5000, 4100, 17_000, 9000, 4200];
        case.grow(rng, &generate::FULL, 15);
        case.hold(counts);
    });
    counts.must_have_met("0 and 7", counts.with(0) > 0 && counts.with(7) > 0);
}

#[test]
fn over_the_limits() {
    let mut counts = Counts::default();
    let mut rng = Rng::new(1);
    // Vertices, positions, arcs, edges, faces: one too many of each, and tables that do not go together.
    let over = [
        [4097, 4097, 16, 8, 8],
        [8, 8, 2 * 8193, 8193, 8],
        [8, 8, 16, 8, 4097],
        [8, 9, 16, 8, 8],
        [9, 8, 16, 8, 8],
        [8, 8, 17, 8, 8],
        [8, 8, 15, 8, 8],
        [8, 8, 0, 8, 8],
        [8, 8, 16, 0, 8],
        [0, 1, 0, 0, 0],
        [0, 0, 1, 0, 0],
        [100_000, 100_000, 16, 8, 8],
    ];
    for [vertices, positions, arcs, edges, faces] in over {
        let tables = Tables {
            vertices: vec![[0; 2]; vertices],
            positions: vec![[0.0; 3]; positions],
            arcs: vec![[0; 6]; arcs],
            edges: vec![[0; 3]; edges],
            faces: vec![[0; 3]; faces],
        };
        let mut one = tables.clone();
        fill_with_rubbish(&mut rng, &mut one);
        let lending = Lending { two: one.clone(), one, tables: tables.clone(), counters: [0; 3] };
        let mut lines = every_edit(&mut rng, &Default::default());
        lines.push(Line::Arity(0));
        all_refused(&lending, &lines, &mut counts, "over the limit");
        assert_eq!(calls::check(tables.show(), &[0; 3]).number, 1);
        assert_eq!(Mesh::from_tables(tables, [0; 3]).unwrap_err(), Refusal::Tables);
    }
    println!("over the limits: {} calls\n{counts}", counts.calls());
}

#[test]
fn the_last_row_of_the_largest_tables() {
    let mut rng = Rng::new(1);
    let sizes = [4096, 8192, 4096];
    let mut case = Case { every_record: false, ..Case::new(sizes) };
    case.start = filled(&mut rng, sizes, [1, 0, 0], &[3]);
    case.lines = vec![Line::Vertex([1.0, 2.0, 3.0]), Line::Vertex([1.0, 2.0, 3.0]), Line::Arity(0)];
    let mut counts = Counts::default();
    case.hold(&mut counts);
    println!("the last row of the largest tables: {} calls\n{counts}", counts.calls());
    assert_eq!([counts.with(0), counts.with(7)], [2, 1]);
}

#[test]
fn tables_of_no_rows() {
    let mut counts = Counts::default();
    let mut rng = Rng::new(1);
    let mut one = room([0; 3], [4; 5]);
    fill_with_rubbish(&mut rng, &mut one);
    let lending = Lending { tables: Tables::default(), counters: [0; 3], two: one.clone(), one };
    for line in every_edit(&mut rng, &Default::default()) {
        let mut lent = lending.clone();
        let reply = line.call(&mut lent);
        counts.answered(line.letter(), reply.number);
        let wanted = match line {
            Line::Vertex(_) => 7,
            Line::Face(..) => continue,
            _ => 4,
        };
        assert_eq!(reply.number, wanted, "{line}");
        assert!(all_zero(&lent.one) && all_zero(&lent.two));
    }
    assert_eq!(calls::check(Tables::default().show(), &[0; 3]).number, 0);
    println!("tables of no rows: {} calls\n{counts}", counts.calls());
}

#[test]
fn one_before_three_before_zero() {
    let mut tables = Tables::zeroed(4096, 8192, 4096);
    let check = |tables: &Tables, vertices: u32| calls::check(tables.show(), &[vertices, 0, 0]).number;
    assert_eq!(check(&tables, 0), 0);
    tables.vertices[4095] = [1, 0];
    assert_eq!(check(&tables, 1), 3, "sound and unfinished");
    assert_eq!(check(&tables, 0), 1, "unsound and unfinished");
    assert_eq!(Mesh::from_tables(tables.clone(), [1, 0, 0]).unwrap().check(), Err(Refusal::TopologyMalformed));
    assert_eq!(Mesh::from_tables(tables, [0; 3]).unwrap_err(), Refusal::Tables);
}

#[test]
fn a_mesh_within_the_limits_alone() {
    assert!(Mesh::new(4096, 8192, 4096).is_ok());
    assert!(Mesh::new(0, 0, 0).is_ok());
    for [v, e, f] in [[4097, 1, 1], [1, 8193, 1], [1, 1, 4097], [usize::MAX, 1, 1]] {
        assert_eq!(Mesh::new(v, e, f).unwrap_err(), Refusal::Tables);
    }
    let numbers: Vec<u32> = Refusal::ALL.iter().map(|refusal| refusal.number()).collect();
    assert_eq!(numbers, [1, 2, 3, 4, 5, 6, 7, 8, 13]);
    assert_eq!(Refusal::from_number(0), None);
    assert_eq!(Refusal::NoRoom.to_string(), "NoRoom (7): not enough free rows, or no keys left");
}
