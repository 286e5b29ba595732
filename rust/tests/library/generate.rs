//! Random lines, made by the mesh as it stands, so that many edits are accepted and conflicts are common; and random sound meshes that no
//! script need reach.

use std::collections::{BTreeMap, BTreeSet};

use ullarvesp::Move;

use crate::line::Line;
use crate::records::{opposite, ArcRecord, FaceRecord, Name, Records, Sizes, VertexRecord};
use crate::rng::Rng;

/// How often each kind of line comes, the least vertices before any other line, the vertices beyond which no line adds any, and arities.
#[derive(Clone)]
pub struct Profile {
    pub weights: [(char, f64); 14],
    pub least: usize,
    pub most: usize,
    pub arities: &'static [usize],
}

const fn profile(w: [f64; 14], least: usize, most: usize, arities: &'static [usize]) -> Profile {
    let letters = ['v', 'f', 'r', 's', 'p', 'b', 'j', 'x', 'X', 'a', 'A', 'n', 'c', 'g'];
    let mut weights = [(' ', 0.0); 14];
    let mut i = 0;
    while i < 14 {
        weights[i] = (letters[i], w[i]);
        i += 1;
    }
    Profile { weights, least, most, arities }
}

//                                       v    f    r    s    p   b    j    x    X   a    A    n   c   g
pub const TINY: Profile = profile([1.0, 10.0, 3.0, 3.0, 1.0, 2.0, 3.0, 1.0, 0.3, 1.0, 0.3, 0.6, 0.3, 0.3], 4, 9, &[3, 3, 3, 4, 4, 5]);
pub const SMALL: Profile = profile([2.0, 10.0, 2.0, 3.0, 2.0, 2.0, 3.0, 1.5, 0.4, 2.0, 0.4, 0.6, 0.3, 0.3], 5, 24, &[3, 3, 4, 4, 5, 6]);
pub const REMOVING: Profile = profile([1.0, 10.0, 7.0, 3.0, 1.0, 2.0, 3.0, 0.6, 0.2, 1.0, 0.2, 0.6, 0.3, 0.3], 5, 12, &[3, 3, 4, 4, 5, 6]);
pub const BRIDGING: Profile = profile([3.0, 10.0, 1.0, 1.0, 0.5, 8.0, 4.0, 1.0, 0.2, 1.0, 0.2, 0.6, 0.3, 0.3], 8, 30, &[3, 3, 4, 4]);
pub const BIG: Profile = profile([2.0, 8.0, 2.0, 4.0, 2.0, 3.0, 3.0, 2.0, 0.5, 2.0, 0.5, 0.6, 0.3, 0.3], 8, 80, &[3, 4, 5, 6, 8, 10]);
pub const WIDE: Profile = profile([4.0, 6.0, 2.0, 6.0, 1.0, 3.0, 2.0, 1.0, 0.5, 1.0, 0.5, 0.6, 0.3, 0.3], 12, 300, &[3, 8, 16, 32, 63, 64]);
/// No bound on vertices, every edit as likely: for tables that are or become full.
pub const FULL: Profile =
    profile([3.0, 4.0, 2.0, 4.0, 3.0, 3.0, 3.0, 3.0, 1.5, 3.0, 1.5, 0.6, 0.3, 0.3], 3, usize::MAX, &[3, 3, 4, 5, 6, 8]);

fn finite_bits(rng: &mut Rng) -> f64 {
    let exponent = rng.below(2047) as u64;
    f64::from_bits(rng.bits() & 0x800f_ffff_ffff_ffff | exponent << 52)
}

/// A coordinate, an offset or a factor: mostly small, at times any finite number, at times at the edge, rarely not finite.
fn coordinate(rng: &mut Rng) -> f64 {
    match rng.below(1000) {
        0..=599 => rng.between(0, 18) as f64 - 9.0,
        600..=749 => (rng.unit() - 0.5) * 2e3,
        750..=879 => finite_bits(rng),
        880..=992 => rng.pick(&[
            -0.0,
            f64::MAX,
            f64::MIN,
            1e308,
            -1e308,
            f64::MIN_POSITIVE,
            5e-324,
            -5e-324,
            2.225e-308,
            0.1,
            1e16,
            1e-300,
            f64::EPSILON,
        ]),
        993..=995 => f64::INFINITY,
        996..=997 => f64::NEG_INFINITY,
        _ => f64::from_bits(0x7ff0_0000_0000_0001 | rng.bits() & 0x800f_ffff_ffff_ffff),
    }
}

pub fn point(rng: &mut Rng) -> [f64; 3] {
    std::array::from_fn(|_| coordinate(rng))
}

/// A position: mostly apart from all others, at times that of one of these, or that of the middle of all, where 0 and -0 meet.
fn spot(rng: &mut Rng, places: &[[f64; 3]]) -> [f64; 3] {
    match rng.below(100) {
        0..=2 if !places.is_empty() => rng.pick(places).map(|x| if x == 0.0 { zero(rng) } else { x }),
        3 => std::array::from_fn(|_| zero(rng)),
        _ => point(rng),
    }
}

fn zero(rng: &mut Rng) -> f64 {
    rng.pick(&[0.0, 0.0, -0.0])
}

/// A shift, at times by nothing.
fn shift(rng: &mut Rng) -> Move {
    Move::Shift(if rng.chance(0.03) { std::array::from_fn(|_| zero(rng)) } else { point(rng) })
}

/// A scale, at times one that leaves everything where it is, or brings it together.
fn scale(rng: &mut Rng) -> Move {
    Move::Scale { centre: point(rng), factor: if rng.chance(0.06) { rng.pick(&[1.0, 0.0]) } else { coordinate(rng) } }
}

/// The mesh as the generator looks at it.
struct View<'a> {
    mesh: &'a Records,
    vertices: Vec<u32>,
    faces: Vec<u32>,
    arcs: Vec<Name>,
    border: Vec<Name>,
}

impl View<'_> {
    fn of(mesh: &Records) -> View<'_> {
        View {
            mesh,
            vertices: mesh.vertices.keys().copied().collect(),
            faces: mesh.faces.keys().copied().collect(),
            arcs: mesh.arcs.keys().copied().collect(),
            border: mesh.arcs.iter().filter(|(_, record)| record.face.is_none()).map(|(name, _)| *name).collect(),
        }
    }

    fn unknown(&self, rng: &mut Rng, counter: u32) -> u32 {
        match rng.below(8) {
            0 => u32::MAX - rng.below(2) as u32,
            1 => rng.bits() as u32,
            _ => rng.between(0, counter as usize + 2) as u32,
        }
    }

    fn vertex(&self, rng: &mut Rng) -> u32 {
        if !self.vertices.is_empty() && rng.chance(0.97) {
            rng.pick(&self.vertices)
        } else {
            self.unknown(rng, self.mesh.counters[0])
        }
    }

    /// A new vertex, at times where another one stands.
    fn new_vertex(&self, rng: &mut Rng) -> Line {
        let mut places = vec![];
        if !self.vertices.is_empty() {
            places.push(self.mesh.position(rng.pick(&self.vertices)).unwrap());
        }
        Line::Vertex(spot(rng, &places))
    }

    /// A poke, at times at a corner.
    fn poke(&self, rng: &mut Rng) -> Line {
        let face = self.face(rng);
        let corners = self.mesh.ring_vertices(face).unwrap_or_default();
        let places: Vec<[f64; 3]> = corners.into_iter().map(|key| self.mesh.position(key).unwrap()).collect();
        Line::Poke(face, spot(rng, &places))
    }

    fn face(&self, rng: &mut Rng) -> u32 {
        if !self.faces.is_empty() && rng.chance(0.95) {
            rng.pick(&self.faces)
        } else {
            self.unknown(rng, self.mesh.counters[2])
        }
    }

    fn arc(&self, rng: &mut Rng, border: f64) -> Name {
        if !self.border.is_empty() && rng.chance(border) {
            rng.pick(&self.border)
        } else if !self.arcs.is_empty() && rng.chance(0.9) {
            rng.pick(&self.arcs)
        } else {
            (self.vertex(rng), self.vertex(rng))
        }
    }

    /// The keys of a face insert.
    fn perimeter(&self, rng: &mut Rng, n: usize) -> Vec<u32> {
        let z = rng.unit();
        if z < 0.02 {
            let keys = rng.between(65, 70);
            let sample = rng.sample(&self.vertices, keys);
            return if sample.len() == keys { sample } else { (0..keys).map(|_| self.vertex(rng)).collect() };
        }
        if z < 0.25 || self.arcs.is_empty() {
            return rng.sample(&self.vertices, n);
        }
        if z < 0.45 {
            return self.along(rng, n);
        }
        if z < 0.85 {
            return self.along_then_others(rng);
        }
        if z < 0.95 && !self.faces.is_empty() {
            let mut ring = self.mesh.ring_vertices(rng.pick(&self.faces)).unwrap();
            ring.reverse();
            return ring;
        }
        (0..rng.between(0, n)).map(|_| self.vertex(rng)).collect()
    }

    fn along(&self, rng: &mut Rng, n: usize) -> Vec<u32> {
        let mut at = Some(if self.border.is_empty() { rng.pick(&self.arcs) } else { rng.pick(&self.border) });
        let mut keys = vec![at.unwrap().0];
        while let Some(arc) = at.filter(|_| keys.len() < n) {
            keys.push(arc.1);
            at = self.mesh.arcs[&arc].next;
        }
        if rng.chance(0.5) {
            let mut seen = BTreeSet::new();
            keys.retain(|key| seen.insert(*key));
        }
        keys
    }

    fn along_then_others(&self, rng: &mut Rng) -> Vec<u32> {
        let mut arc = if !self.border.is_empty() && rng.chance(0.95) { rng.pick(&self.border) } else { rng.pick(&self.arcs) };
        let mut keys = vec![arc.0, arc.1];
        while rng.chance(0.4) {
            match self.mesh.arcs[&arc].next {
                Some(next) if !keys.contains(&next.1) => {
                    keys.push(next.1);
                    arc = next;
                }
                _ => break,
            }
        }
        let mut rest: Vec<u32> = self.vertices.iter().copied().filter(|key| !keys.contains(key)).collect();
        rng.shuffle(&mut rest);
        if rng.chance(0.6) {
            rest.sort_by_key(|key| self.mesh.vertices[key].leading.is_some());
        }
        let more = rng.pick(&[1, 1, 2, 3]).max(3 - keys.len().min(3));
        keys.extend(rest.into_iter().take(more));
        keys
    }

    fn split(&self, rng: &mut Rng) -> Line {
        let large: Vec<u32> = self.faces.iter().copied().filter(|face| self.mesh.ring(*face).unwrap().len() > 3).collect();
        let face = if !large.is_empty() && rng.chance(0.8) { rng.pick(&large) } else { self.face(rng) };
        let ring = self.mesh.ring_vertices(face).unwrap_or_else(|| self.vertices.clone());
        let mut end = || if !ring.is_empty() && rng.chance(0.95) { rng.pick(&ring) } else { self.vertex(rng) };
        Line::Split(face, end(), end())
    }

    fn bridge(&self, rng: &mut Rng) -> Line {
        let (source, mut destination) = (self.face(rng), self.face(rng));
        if let Some(ring) = self.mesh.ring_vertices(source).filter(|_| rng.chance(0.8)) {
            let alike: Vec<u32> = self.faces.iter().copied().filter(|face| self.mesh.ring(*face).unwrap().len() == ring.len()).collect();
            let apart: Vec<u32> = alike
                .iter()
                .copied()
                .filter(|face| !self.mesh.ring_vertices(*face).unwrap().iter().any(|key| ring.contains(key)))
                .collect();
            destination = if !apart.is_empty() && rng.chance(0.6) { rng.pick(&apart) } else { rng.pick(&alike) };
        }
        Line::Bridge(source, destination)
    }
}

/// The letter of the line to come: by weight, but nothing that adds vertices once there are enough, and mostly no edit of what is not there.
fn letter(rng: &mut Rng, view: &View, profile: &Profile) -> char {
    let full = view.vertices.len() >= profile.most;
    let weight = |(letter, w): &(char, f64)| if full && "vpxXaA".contains(*letter) { 0.0 } else { *w };
    let mut left = rng.unit() * profile.weights.iter().map(weight).sum::<f64>();
    let mut chosen = 'f';
    for pair in &profile.weights {
        left -= weight(pair);
        if left < 0.0 {
            chosen = pair.0;
            break;
        }
    }
    let nothing = "rspbxX".contains(chosen) && view.faces.is_empty() || "jaA".contains(chosen) && view.arcs.is_empty();
    if nothing && rng.chance(0.9) {
        'f'
    } else {
        chosen
    }
}

pub fn random_line(rng: &mut Rng, mesh: &Records, profile: &Profile) -> Line {
    let view = View::of(mesh);
    if view.vertices.len() < profile.least && rng.chance(0.9) {
        return view.new_vertex(rng);
    }
    let letter = letter(rng, &view, profile);
    match letter {
        'v' => view.new_vertex(rng),
        'r' => Line::Remove(view.face(rng)),
        's' => view.split(rng),
        'p' => view.poke(rng),
        'b' => view.bridge(rng),
        'j' => {
            let (first, second) = (view.arc(rng, 0.8), view.arc(rng, 0.8));
            Line::Join(first.0, first.1, second.0, second.1)
        }
        'x' => Line::Extrude(view.face(rng), shift(rng)),
        'X' => Line::Extrude(view.face(rng), scale(rng)),
        'a' | 'A' => {
            let by = if letter == 'a' { shift(rng) } else { scale(rng) };
            let arc = view.arc(rng, 0.9);
            Line::ArcExtrude(arc.0, arc.1, by)
        }
        'n' => Line::Arity(view.face(rng)),
        'c' => Line::Check,
        'g' => Line::Ring(view.face(rng)),
        _ => {
            let n = rng.pick(profile.arities);
            let mark = rng.pick(&[0, 1, 2, 3, 7, u32::MAX]);
            Line::Face(mark, view.perimeter(rng, n))
        }
    }
}

/// Each edit once, with arguments that fit the mesh where it has any.
pub fn every_edit(rng: &mut Rng, mesh: &Records) -> Vec<Line> {
    let view = View::of(mesh);
    let arc = |rng: &mut Rng| view.arc(rng, 0.9);
    let ((s, d), (a, b), (c, e)) = (arc(rng), arc(rng), arc(rng));
    let (n, mark) = (rng.between(3, 5), rng.below(9) as u32);
    vec![
        Line::Vertex([1.0, 2.0, 3.0]),
        Line::Face(mark, view.perimeter(rng, n)),
        Line::Remove(view.face(rng)),
        view.split(rng),
        Line::Poke(view.face(rng), [0.5; 3]),
        view.bridge(rng),
        Line::Join(a, b, c, e),
        Line::Extrude(view.face(rng), Move::Shift([0.0, 0.0, 1.0])),
        Line::Extrude(view.face(rng), Move::Scale { centre: [1.0; 3], factor: 2.0 }),
        Line::ArcExtrude(s, d, Move::Shift([0.0, 1.0, 0.0])),
        Line::ArcExtrude(s, d, Move::Scale { centre: [1.0; 3], factor: 0.5 }),
    ]
}

/// Changes a sound mesh at random into another sound mesh: links and leading arcs of the border, the arcs that edges and faces name,
/// edges and vertices dropped, keys and counters changed.
pub fn disturb(rng: &mut Rng, mesh: &mut Records) {
    let z = rng.pick(&[0.02, 0.1, 0.3, 0.7]);
    disturb_links(rng, mesh, z);
    let rings: BTreeMap<u32, Vec<Name>> = mesh.faces.keys().map(|face| (*face, mesh.ring(*face).unwrap())).collect();
    for name in mesh.edges.values_mut() {
        if rng.chance(z) {
            *name = opposite(*name);
        }
    }
    for (face, record) in &mut mesh.faces {
        if rng.chance(z) {
            *record = FaceRecord { arc: rng.pick(&rings[face]), mark: rng.below(10) as u32 };
        }
    }
    drop_edges(rng, mesh, z);
    let held: BTreeSet<u32> = mesh.arcs.keys().map(|name| name.0).collect();
    mesh.vertices.retain(|key, _| held.contains(key) || !rng.chance(0.3));
    if rng.chance(0.5) {
        rename(rng, mesh);
    }
}

fn disturb_links(rng: &mut Rng, mesh: &mut Records, z: f64) {
    let (mut leaving, mut arriving) = (BTreeMap::<u32, Vec<Name>>::new(), BTreeMap::<u32, Vec<Name>>::new());
    for name in mesh.arcs.keys() {
        leaving.entry(name.0).or_default().push(*name);
        arriving.entry(name.1).or_default().push(*name);
    }
    for ((a, b), record) in mesh.arcs.iter_mut().filter(|(_, record)| record.face.is_none()) {
        if rng.chance(z) {
            record.next = rng.pick_or_none(&leaving[b]);
        }
        if rng.chance(z) {
            record.previous = rng.pick_or_none(&arriving[a]);
        }
    }
    for (key, record) in &mut mesh.vertices {
        if rng.chance(z) {
            record.leading = rng.pick_or_none(leaving.get(key).map_or(&[], |list| list));
        }
    }
}

fn drop_edges(rng: &mut Rng, mesh: &mut Records, z: f64) {
    for (key, name) in mesh.edges.clone() {
        let gone = [name, opposite(name)];
        if gone.iter().any(|name| mesh.arcs[name].face.is_some()) || !rng.chance(z) {
            continue;
        }
        mesh.edges.remove(&key);
        mesh.arcs.retain(|name, _| !gone.contains(name));
        let names: Vec<Name> = mesh.arcs.keys().copied().collect();
        for ((a, b), record) in &mut mesh.arcs {
            if record.next.is_some_and(|next| gone.contains(&next)) {
                let leaving: Vec<Name> = names.iter().copied().filter(|name| name.0 == *b).collect();
                record.next = rng.pick_or_none(&leaving);
            }
            if record.previous.is_some_and(|previous| gone.contains(&previous)) {
                let arriving: Vec<Name> = names.iter().copied().filter(|name| name.1 == *a).collect();
                record.previous = rng.pick_or_none(&arriving);
            }
        }
        for record in mesh.vertices.values_mut().filter(|record| record.leading.is_some_and(|arc| gone.contains(&arc))) {
            record.leading = None;
        }
    }
}

/// New keys with gaps, in another order, and counters above them.
fn rename(rng: &mut Rng, mesh: &mut Records) {
    let mut names = |keys: Vec<u32>, counter: u32| -> (BTreeMap<u32, u32>, u32) {
        let room: Vec<u32> = (0..counter + rng.between(1, 5) as u32).collect();
        let chosen = rng.sample(&room, keys.len());
        let above = chosen.iter().map(|key| key + 1).max().unwrap_or(0).max(counter) + rng.below(3) as u32;
        (keys.into_iter().zip(chosen).collect(), above)
    };
    let (v, nv) = names(mesh.vertices.keys().copied().collect(), mesh.counters[0]);
    let (e, ne) = names(mesh.edges.keys().copied().collect(), mesh.counters[1]);
    let (f, nf) = names(mesh.faces.keys().copied().collect(), mesh.counters[2]);
    let arc = |name: &Name| (v[&name.0], v[&name.1]);
    *mesh = Records {
        vertices: mesh
            .vertices
            .iter()
            .map(|(key, r)| (v[key], VertexRecord { position: r.position, leading: r.leading.as_ref().map(arc) }))
            .collect(),
        arcs: mesh
            .arcs
            .iter()
            .map(|(name, r)| {
                let (next, previous) = (r.next.as_ref().map(arc), r.previous.as_ref().map(arc));
                (arc(name), ArcRecord { next, previous, face: r.face.map(|face| f[&face]), edge: e[&r.edge] })
            })
            .collect(),
        edges: mesh.edges.iter().map(|(key, name)| (e[key], arc(name))).collect(),
        faces: mesh.faces.iter().map(|(key, r)| (f[key], FaceRecord { arc: arc(&r.arc), mark: r.mark })).collect(),
        counters: [nv, ne, nf],
    };
}

/// Separate polygons of these numbers of vertices, each with one face.
pub fn polygons(rng: &mut Rng, arities: &[usize]) -> Records {
    let mut mesh = Records::default();
    for n in arities {
        let [v, e, f] = mesh.counters;
        let n = *n as u32;
        let at = |i: u32| v + i % n;
        for i in 0..n {
            let (inner, outer) = ((at(i), at(i + 1)), (at(i + 1), at(i)));
            let (after, before) = ((at(i + 1), at(i + 2)), (at(i + n - 1), at(i)));
            mesh.arcs.insert(inner, ArcRecord { next: Some(after), previous: Some(before), face: Some(f), edge: e + i });
            let (next, previous) = (Some(opposite(before)), Some(opposite(after)));
            mesh.arcs.insert(outer, ArcRecord { next, previous, face: None, edge: e + i });
            mesh.edges.insert(e + i, inner);
            // Sound tables may have neighbours in one spot: no edit puts them there, a caller can.
            let before = mesh.vertices.get(&at(i + n - 1)).filter(|_| rng.chance(0.002)).map(|record| record.position);
            let position = before.unwrap_or_else(|| point(rng).map(|x| if x.is_finite() { x } else { 0.25 }.to_bits()));
            mesh.vertices.insert(at(i), VertexRecord { position, leading: Some(inner) });
        }
        mesh.faces.insert(f, FaceRecord { arc: (at(0), at(1)), mark: rng.below(10) as u32 });
        mesh.counters = [v + n, e + n, f + 1];
    }
    mesh
}

/// Polygons, and vertices without arcs, that leave about so many rows free in each table.
pub fn filled(rng: &mut Rng, sizes: Sizes, free: Sizes, arities: &[usize]) -> Records {
    let room = |kind: usize| sizes[kind].saturating_sub(free[kind]);
    let (mut vertices, mut edges, mut faces) = (room(0), room(1), room(2));
    let mut list = vec![];
    loop {
        let n = rng.pick(arities);
        if n > vertices || n > edges || faces == 0 {
            break;
        }
        list.push(n);
        (vertices, edges, faces) = (vertices - n, edges - n, faces - 1);
    }
    let mut mesh = polygons(rng, &list);
    for _ in 0..vertices {
        let key = mesh.counters[0];
        mesh.vertices.insert(key, VertexRecord { position: [f64::from(key), 1.0, 1.0].map(f64::to_bits), leading: None });
        mesh.counters[0] += 1;
    }
    mesh
}

/// A cloth of w by h faces of four vertices each.
pub fn grid(w: u32, h: u32) -> Records {
    let vertex = |x: u32, y: u32| y * (w + 1) + x;
    let places = (0..=h).flat_map(|y| (0..=w).map(move |x| [f64::from(x), f64::from(y), 0.0]));
    let faces = (0..h).flat_map(|y| (0..w).map(move |x| vec![vertex(x, y), vertex(x + 1, y), vertex(x + 1, y + 1), vertex(x, y + 1)]));
    joined(places, faces)
}

/// Triangles round one vertex, beside one another, open at one place.
pub fn fan(n: u32) -> Records {
    joined((0..n + 2).map(|i| [f64::from(i), f64::from(i * i), 0.0]), (1..=n).map(|i| vec![0, i, i + 1]))
}

/// Faces that are joined along their edges, with a border that meets no vertex twice.
fn joined(places: impl Iterator<Item = [f64; 3]>, faces: impl Iterator<Item = Vec<u32>>) -> Records {
    let mut mesh = Records::default();
    for (vertex, place) in places.enumerate() {
        mesh.vertices.insert(vertex as u32, VertexRecord { position: place.map(f64::to_bits), leading: None });
    }
    for (face, corners) in faces.enumerate() {
        let n = corners.len();
        let arc = |i: usize| (corners[i % n], corners[(i + 1) % n]);
        for (i, corner) in corners.iter().enumerate() {
            let key = mesh.arcs.get(&opposite(arc(i))).map_or(mesh.edges.len() as u32, |record| record.edge);
            mesh.edges.entry(key).or_insert(arc(i));
            let (next, previous) = (Some(arc(i + 1)), Some(arc(i + n - 1)));
            mesh.arcs.insert(arc(i), ArcRecord { next, previous, face: Some(face as u32), edge: key });
            mesh.vertices.get_mut(corner).unwrap().leading = Some(arc(i));
        }
        mesh.faces.insert(face as u32, FaceRecord { arc: arc(0), mark: face as u32 });
    }
    let border: BTreeMap<u32, Name> =
        mesh.arcs.keys().map(|name| opposite(*name)).filter(|name| !mesh.arcs.contains_key(name)).map(|name| (name.0, name)).collect();
    for name in border.values() {
        let edge = mesh.arcs[&opposite(*name)].edge;
        let next = border[&name.1];
        mesh.arcs.entry(next).or_insert(ArcRecord { next: None, previous: None, face: None, edge: 0 }).previous = Some(*name);
        let record = mesh.arcs.entry(*name).or_insert(ArcRecord { next: None, previous: None, face: None, edge: 0 });
        (record.next, record.edge) = (Some(next), edge);
    }
    mesh.counters = [mesh.vertices.len() as u32, mesh.edges.len() as u32, mesh.faces.len() as u32];
    mesh
}
