//! Damaged tables: each phrase of Sound broken, one damage at a time, on random sound meshes. Every call answers 1, and every bit of mesh,
//! counters and rooms is as it was.

use ullarvesp::{calls, Mesh, Refusal, Tables};

use crate::case::{fill_with_rubbish, same_bits};
use crate::counts::Counts;
use crate::generate::{every_edit, filled, polygons};
use crate::line::{Lending, Line};
use crate::records::{Counters, Records};
use crate::repeat;
use crate::rng::Rng;
use crate::scripts::disturbed;
use crate::sound::{broken, PHRASES};

/// The tables under damage.
struct Damaged {
    t: Tables,
    counters: Counters,
}

fn links<const N: usize>(rows: &[[u32; N]], keep: impl Fn(&[u32; N]) -> bool) -> Vec<u32> {
    rows.iter().zip(1..).filter(|(row, _)| keep(row)).map(|(_, link)| link).collect()
}

impl Damaged {
    fn unused_vertex(&self, rng: &mut Rng) -> Option<u32> {
        pick(rng, &links(&self.t.vertices, |row| row[0] == 0))
    }

    fn vertex(&self, rng: &mut Rng) -> Option<u32> {
        pick(rng, &links(&self.t.vertices, |row| row[0] != 0))
    }

    fn border(&self, rng: &mut Rng) -> Option<u32> {
        pick(rng, &links(&self.t.arcs, |row| row[0] != 0 && row[4] == 0))
    }

    fn on_a_ring(&self, rng: &mut Rng) -> Option<u32> {
        pick(rng, &links(&self.t.arcs, |row| row[4] != 0))
    }

    fn arc(&mut self, link: u32) -> &mut [u32; 6] {
        &mut self.t.arcs[link as usize - 1]
    }

    fn new_vertex(&mut self, rng: &mut Rng) -> Option<u32> {
        let link = self.unused_vertex(rng)?;
        self.counters[0] = self.counters[0].checked_add(1)?;
        self.t.vertices[link as usize - 1] = [self.counters[0], 0];
        Some(link)
    }

    /// A new edge between two vertices, without links: its two arcs.
    fn new_edge(&mut self, rng: &mut Rng, s: u32, d: u32) -> Option<(u32, u32)> {
        let edge = pick(rng, &links(&self.t.edges, |row| row[0] == 0))?;
        let free = links(&self.t.arcs, |row| row[0] == 0);
        let [x, y] = rng.sample(&free, 2)[..] else { return None };
        self.counters[1] = self.counters[1].checked_add(1)?;
        self.t.edges[edge as usize - 1] = [self.counters[1], x, y];
        *self.arc(x) = [s, d, 0, 0, 0, edge];
        *self.arc(y) = [d, s, 0, 0, 0, edge];
        Some((x, y))
    }

    /// A new face over a ring of arcs, linked one to the next.
    fn new_face(&mut self, rng: &mut Rng, ring: &[u32]) -> Option<()> {
        let face = pick(rng, &links(&self.t.faces, |row| row[0] == 0))?;
        self.counters[2] = self.counters[2].checked_add(1)?;
        self.t.faces[face as usize - 1] = [self.counters[2], ring[0], 5];
        for (i, x) in ring.iter().enumerate() {
            let (next, previous) = (ring[(i + 1) % ring.len()], ring[(i + ring.len() - 1) % ring.len()]);
            let arc = self.arc(*x);
            (arc[2], arc[3], arc[4]) = (next, previous, face);
        }
        Some(())
    }

    /// A face over new vertices in this pattern, each edge new.
    fn new_ring(&mut self, rng: &mut Rng, pattern: &[usize]) -> Option<()> {
        let vertices = pattern.iter().max()? + 1;
        let made: Vec<u32> = (0..vertices).map(|_| self.new_vertex(rng)).collect::<Option<_>>()?;
        let mut ring = vec![];
        for (i, at) in pattern.iter().enumerate() {
            let to = pattern[(i + 1) % pattern.len()];
            ring.push(self.new_edge(rng, made[*at], made[to])?.0);
        }
        self.new_face(rng, &ring)
    }
}

fn pick(rng: &mut Rng, from: &[u32]) -> Option<u32> {
    (!from.is_empty()).then(|| rng.pick(from))
}

/// A link that leads nowhere: past the table, or far past it.
fn nowhere(rng: &mut Rng, rows: usize) -> u32 {
    rng.pick(&[rows as u32 + 1, rows as u32 + 2, u32::MAX, 1 << 31])
}

/// Breaks a phrase where the mesh has a place for it.
fn break_phrase(phrase: &str, m: &mut Damaged, rng: &mut Rng) -> Option<()> {
    match phrase {
        "within limits" | "keys differ" | "keys below" => break_sizes_and_keys(phrase, m, rng),
        "both arcs" | "ends differ" | "ends exist" | "pairs differ" | "edge joins" => break_edges(phrase, m, rng),
        "leads out" | "next leaves" | "previous arrives" | "face exists" => break_links(phrase, m, rng),
        "rest zero" | "all finite" => break_rows(phrase, m, rng),
        _ => break_rings(phrase, m, rng),
    }
}

fn break_sizes_and_keys(phrase: &str, m: &mut Damaged, rng: &mut Rng) -> Option<()> {
    match phrase {
        "within limits" => match rng.below(4) {
            0 => m.t.positions.push([0.0; 3]),
            1 => drop(m.t.positions.pop()?),
            2 => m.t.arcs.push([0; 6]),
            _ => m.t.edges.push([0; 3]),
        },
        "keys differ" => {
            let rows = m.t.vertices.iter().map(|row| row[0]).filter(|cell| *cell != 0).collect::<Vec<u32>>();
            let [key, other] = rng.sample(&rows, 2)[..] else { return None };
            m.t.vertices.iter_mut().find(|row| row[0] == key)?[0] = other;
        }
        "keys below" => match rng.below(3) {
            0 => m.counters[0] = m.t.vertices.iter().map(|row| row[0]).max().filter(|cell| *cell > 0)? - 1,
            1 => m.t.edges.iter_mut().find(|row| row[0] != 0)?[0] = m.counters[1] + 1,
            _ => m.t.faces.iter_mut().find(|row| row[0] != 0)?[0] = rng.pick(&[m.counters[2] + 1, u32::MAX]),
        },
        _ => unreachable!("{phrase}"),
    }
    Some(())
}

fn break_edges(phrase: &str, m: &mut Damaged, rng: &mut Rng) -> Option<()> {
    match phrase {
        "both arcs" => {
            m.counters[1] += 1;
            let key = m.counters[1];
            *m.t.edges.iter_mut().find(|row| row[0] == 0)? = [key, 0, 0];
        }
        "ends differ" => {
            let vertex = m.vertex(rng)?;
            m.new_edge(rng, vertex, vertex)?;
        }
        "ends exist" => {
            let (vertex, other) = (m.vertex(rng)?, m.unused_vertex(rng).filter(|_| rng.chance(0.5)));
            let other = other.unwrap_or(nowhere(rng, m.t.vertices.len()));
            m.new_edge(rng, vertex, other)?;
        }
        "pairs differ" => {
            let x = m.border(rng)?;
            let [s, d, ..] = *m.arc(x);
            m.new_edge(rng, s, d)?;
        }
        "edge joins" => {
            let (s, d) = (m.new_vertex(rng)?, m.vertex(rng)?);
            let free = links(&m.t.arcs, |row| row[0] == 0);
            let [x, y] = rng.sample(&free, 2)[..] else { return None };
            *m.arc(x) = [s, d, 0, 0, 0, 0];
            *m.arc(y) = [d, s, 0, 0, 0, 0];
        }
        _ => unreachable!("{phrase}"),
    }
    Some(())
}

fn break_links(phrase: &str, m: &mut Damaged, rng: &mut Rng) -> Option<()> {
    let wrong_or_nowhere = |rng: &mut Rng, wrong: Vec<u32>, rows: usize| {
        if wrong.is_empty() || rng.chance(0.3) {
            nowhere(rng, rows)
        } else {
            rng.pick(&wrong)
        }
    };
    let arcs = m.t.arcs.len();
    match phrase {
        "leads out" => {
            let vertex = m.vertex(rng)?;
            let wrong = links(&m.t.arcs, |row| row[0] != 0 && row[0] != vertex);
            m.t.vertices[vertex as usize - 1][1] = wrong_or_nowhere(rng, wrong, arcs);
        }
        "next leaves" | "previous arrives" => {
            let (cell, end) = if phrase == "next leaves" { (2, 0) } else { (3, 1) };
            let x = m.border(rng)?;
            let at = m.arc(x)[1 - end];
            let wrong = links(&m.t.arcs, |row| row[0] != 0 && row[end] != at);
            m.arc(x)[cell] = wrong_or_nowhere(rng, wrong, arcs);
        }
        "face exists" => {
            let x = m.border(rng)?;
            let free = links(&m.t.faces, |row| row[0] == 0);
            m.arc(x)[4] = wrong_or_nowhere(rng, free, m.t.faces.len());
        }
        _ => unreachable!("{phrase}"),
    }
    Some(())
}

fn break_rings(phrase: &str, m: &mut Damaged, rng: &mut Rng) -> Option<()> {
    match phrase {
        "names holder" => {
            let face = pick(rng, &links(&m.t.faces, |row| row[0] != 0))?;
            let wrong = links(&m.t.arcs, |row| row[4] != face);
            m.t.faces[face as usize - 1][1] = if rng.chance(0.7) { pick(rng, &wrong)? } else { nowhere(rng, m.t.arcs.len()) };
        }
        "comes back" => {
            let x = m.on_a_ring(rng)?;
            m.arc(x)[2] = 0;
        }
        "three to limit" if rng.chance(0.5) => {
            let (s, d) = (m.new_vertex(rng)?, m.new_vertex(rng)?);
            let (x, y) = m.new_edge(rng, s, d)?;
            m.new_face(rng, &[x, y])?;
        }
        "three to limit" => m.new_ring(rng, &Vec::from_iter(0..65))?,
        "sources differ" => m.new_ring(rng, &[0, 1, 2, 0, 3, 4])?,
        "ring holds" => {
            let x = m.on_a_ring(rng)?;
            let named = m.t.faces.iter().any(|row| row[1] == x);
            m.arc(x)[4] = if named { return None } else { 0 };
        }
        "holders on ring" => {
            let (x, y) = (m.border(rng)?, m.on_a_ring(rng)?);
            m.arc(x)[4] = m.arc(y)[4];
        }
        "runs back" => {
            let x = m.on_a_ring(rng)?;
            let [s, _, _, previous, ..] = *m.arc(x);
            let others = links(&m.t.arcs, |row| row[0] != 0 && row[1] == s);
            let other = pick(rng, &others).filter(|link| *link != previous && rng.chance(0.7));
            m.arc(x)[3] = other.unwrap_or(0);
        }
        _ => unreachable!("{phrase}"),
    }
    Some(())
}

fn break_rows(phrase: &str, m: &mut Damaged, rng: &mut Rng) -> Option<()> {
    if phrase == "all finite" {
        let vertex = m.vertex(rng)?;
        let nan = f64::from_bits(0x7ff0_0000_0000_0001 | rng.bits() & 0x800f_ffff_ffff_ffff);
        m.t.positions[vertex as usize - 1][rng.below(3)] = rng.pick(&[f64::INFINITY, f64::NEG_INFINITY, nan]);
        return Some(());
    }
    match rng.below(5) {
        0 => m.t.vertices.iter_mut().find(|row| row[0] == 0)?[1] = 1,
        1 => m.t.arcs.iter_mut().find(|row| row[0] == 0)?[rng.between(1, 5)] = 1,
        2 => m.t.edges.iter_mut().find(|row| row[0] == 0)?[rng.between(1, 2)] = u32::MAX,
        3 => m.t.faces.iter_mut().find(|row| row[0] == 0)?[rng.between(1, 2)] = 7,
        _ => {
            let link = m.unused_vertex(rng)?;
            m.t.positions[link as usize - 1][rng.below(3)] = rng.pick(&[-0.0, 1.0, 5e-324]);
        }
    }
    Some(())
}

/// Changes one cell, wherever it is, to a value that may or may not break anything.
fn change_a_cell(m: &mut Damaged, rng: &mut Rng) -> Option<()> {
    let rows = [m.t.vertices.len(), m.t.arcs.len(), m.t.edges.len(), m.t.faces.len()];
    let bound = rng.pick(&rows) + 2;
    let value = rng.pick(&[0, 1, rng.clone().below(bound) as u32, rng.clone().below(12) as u32, u32::MAX, bound as u32]);
    let at = |rng: &mut Rng, n: usize| (n > 0).then(|| rng.below(n));
    match rng.below(6) {
        0 => m.t.vertices[at(rng, rows[0])?][rng.below(2)] = value,
        1 | 2 => m.t.arcs[at(rng, rows[1])?][rng.below(6)] = value,
        3 => m.t.edges[at(rng, rows[2])?][rng.below(3)] = value,
        4 => m.t.faces[at(rng, rows[3])?][rng.below(2)] = value,
        _ => m.counters[rng.below(3)] = value,
    }
    Some(())
}

/// The library on these tables: the check agrees with the tests' own reading, 1 before 3; if they are unsound, every call answers 1 and
/// touches nothing.
fn hold(m: &Damaged, edits: &[Line], rng: &mut Rng, counts: &mut Counts, what: &str) {
    let wrong = broken(&m.t, m.counters);
    let leadless = m.t.vertices.iter().any(|row| row[0] != 0 && row[1] == 0);
    let expected = match (wrong.is_empty(), leadless) {
        (false, _) => 1,
        (true, true) => 3,
        (true, false) => 0,
    };
    let told = calls::check(m.t.show(), &m.counters);
    counts.answered('c', told.number);
    if !wrong.is_empty() && leadless {
        counts.note("unsound and unfinished");
    }
    let fail = |why: &str| panic!("{what}: {why}; broken: {wrong:?}\ncounters {:?}\n{:?}", m.counters, m.t);
    if told != (calls::Reply { number: expected, ..Default::default() }) {
        fail(&format!("the check answers {told:?}"));
    }
    match Mesh::from_tables(m.t.clone(), m.counters) {
        Ok(_) if wrong.is_empty() => return counts.note("still sound"),
        Err(Refusal::Tables) if !wrong.is_empty() => {}
        other => fail(&format!("Mesh::from_tables has {:?}", other.map(|_| "a mesh"))),
    }
    let mut alone = wrong.iter();
    if let (Some(phrase), None) = (alone.next(), alone.next()) {
        counts.note(&format!("alone: {phrase}"));
    }
    let mut room = m.t.clone();
    fill_with_rubbish(rng, &mut room);
    let before = Lending { tables: m.t.clone(), counters: m.counters, one: room.clone(), two: room };
    for line in edits {
        let mut lending = before.clone();
        let reply = line.call(&mut lending);
        counts.answered(line.letter(), reply.number);
        let kept = same_bits(&lending.tables, &before.tables) && lending.counters == before.counters;
        let rooms = same_bits(&lending.one, &before.one) && same_bits(&lending.two, &before.two);
        if reply != (calls::Reply { number: 1, ..Default::default() }) || !kept || !rooms {
            fail(&format!("{line} answers {reply:?}; mesh kept: {kept}, rooms kept: {rooms}"));
        }
    }
}

/// A random sound mesh with free rows.
fn sound_mesh(rng: &mut Rng) -> (Records, Damaged) {
    let sizes = [110, 220, 60];
    let mut start = match rng.below(3) {
        0 => polygons(rng, &[3, 4, 5]),
        1 => filled(rng, sizes, [70, 140, 30], &[3, 4, 5]),
        _ => disturbed(rng, [40, 80, 40]).start,
    };
    start.counters = start.counters.map(|counter| counter + rng.below(2) as u32);
    let mut scatter = Rng::new(rng.bits());
    let (t, counters) = start.to_tables(sizes, [0; 3], Some(&mut scatter));
    assert!(broken(&t, counters).is_empty(), "the mesh is sound to start with");
    (start, Damaged { t, counters })
}

#[test]
fn one_at_a_time() {
    let counts = repeat("damaged tables", 1.0, |rng, counts| {
        let (records, sound) = sound_mesh(rng);
        let mut edits = every_edit(rng, &records);
        edits.push(Line::Arity(records.faces.keys().next().copied().unwrap_or(0)));
        hold(&sound, &edits, rng, counts, "undamaged");
        for phrase in PHRASES {
            let mut damaged = Damaged { t: sound.t.clone(), counters: sound.counters };
            if break_phrase(phrase, &mut damaged, rng).is_some() {
                hold(&damaged, &edits, rng, counts, phrase);
            }
        }
        for _ in 0..20 {
            let mut damaged = Damaged { t: sound.t.clone(), counters: sound.counters };
            if change_a_cell(&mut damaged, rng).is_some() {
                let edit = [rng.pick(&edits)];
                hold(&damaged, &edit, rng, counts, "one cell");
            }
        }
    });
    // These cannot be broken alone: an open ring does not run back, two arcs from a vertex to itself are one pair twice, and a named arc is
    // on the ring that it must hold.
    let together = ["comes back", "ends differ", "names holder"];
    for phrase in PHRASES.iter().filter(|phrase| !together.contains(phrase)) {
        let alone = format!("alone: {phrase}");
        counts.must_have_met(&alone, counts.noted(&alone) > 0);
    }
}
