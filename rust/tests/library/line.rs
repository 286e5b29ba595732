//! A line of a script: one call. Its text as the oracle reads it, and the call itself through the library.

use std::fmt;

use ullarvesp::calls::{self, Reply};
use ullarvesp::{Arc, FaceKey, Mesh, Move, Refusal, Tables, VertexKey};

use crate::records::{number, Counters};

#[derive(Clone, Debug)]
pub enum Line {
    Vertex([f64; 3]),
    Face(u32, Vec<u32>),
    Remove(u32),
    Split(u32, u32, u32),
    Poke(u32, [f64; 3]),
    Bridge(u32, u32),
    Join(u32, u32, u32, u32),
    Extrude(u32, Move),
    ArcExtrude(u32, u32, Move),
    Arity(u32),
    Check,
    /// The vertices of a ring: asked of the crate's iterator, no call of the library.
    Ring(u32),
}

/// What a call answers: document 01's number, and the values that go with it.
#[derive(Clone, Debug, PartialEq)]
pub struct Answer {
    pub number: u32,
    pub values: Vec<u32>,
}

impl Answer {
    pub fn refused(number: u32) -> Answer {
        Answer { number, values: vec![] }
    }
}

/// The library's side of a call: the mesh with its counters, and the rooms.
#[derive(Clone, Debug)]
pub struct Lending {
    pub tables: Tables,
    pub counters: Counters,
    pub one: Tables,
    pub two: Tables,
}

impl Line {
    /// The letter that names the call in scripts, X and A for the moves by a scale.
    pub fn letter(&self) -> char {
        match self {
            Line::Vertex(_) => 'v',
            Line::Face(..) => 'f',
            Line::Remove(_) => 'r',
            Line::Split(..) => 's',
            Line::Poke(..) => 'p',
            Line::Bridge(..) => 'b',
            Line::Join(..) => 'j',
            Line::Extrude(_, Move::Shift(_)) => 'x',
            Line::Extrude(_, Move::Scale { .. }) => 'X',
            Line::ArcExtrude(_, _, Move::Shift(_)) => 'a',
            Line::ArcExtrude(_, _, Move::Scale { .. }) => 'A',
            Line::Arity(_) => 'n',
            Line::Check => 'c',
            Line::Ring(_) => 'g',
        }
    }

    pub fn is_query(&self) -> bool {
        matches!(self, Line::Arity(_) | Line::Check | Line::Ring(_))
    }

    /// Reads a line of the oracle's scripts; none for those that only it has.
    pub fn read(text: &str) -> Option<Line> {
        let field: Vec<&str> = text.split(' ').collect();
        let key = |i: usize| field[i].parse::<u32>().expect("a key");
        let point = |i: usize| [number(field[i]), number(field[i + 1]), number(field[i + 2])];
        let scale = |i: usize| Move::Scale { centre: point(i), factor: number(field[i + 3]) };
        Some(match field[0] {
            "v" => Line::Vertex(point(1)),
            "f" => Line::Face(key(1), (2..field.len()).map(key).collect()),
            "r" => Line::Remove(key(1)),
            "s" => Line::Split(key(1), key(2), key(3)),
            "p" => Line::Poke(key(1), point(2)),
            "b" => Line::Bridge(key(1), key(2)),
            "j" => Line::Join(key(1), key(2), key(3), key(4)),
            "x" => Line::Extrude(key(1), Move::Shift(point(2))),
            "X" => Line::Extrude(key(1), scale(2)),
            "a" => Line::ArcExtrude(key(1), key(2), Move::Shift(point(3))),
            "A" => Line::ArcExtrude(key(1), key(2), scale(3)),
            "n" => Line::Arity(key(1)),
            "c" => Line::Check,
            "g" => Line::Ring(key(1)),
            _ => return None,
        })
    }

    /// The numbers that the caller gives.
    pub fn numbers(&self) -> Vec<f64> {
        match self {
            Line::Vertex(p) | Line::Poke(_, p) => p.to_vec(),
            Line::Extrude(_, by) | Line::ArcExtrude(_, _, by) => match by {
                Move::Shift(d) => d.to_vec(),
                Move::Scale { centre, factor } => [centre as &[f64], &[*factor]].concat(),
            },
            _ => vec![],
        }
    }

    /// This line with every key raised, around the end of the numbers, by the shift of its kind.
    pub fn shifted(&self, shift: Counters) -> Line {
        let v = |key: u32| key.wrapping_add(shift[0]);
        let f = |key: u32| key.wrapping_add(shift[2]);
        match self.clone() {
            Line::Face(mark, keys) => Line::Face(mark, keys.into_iter().map(v).collect()),
            Line::Remove(face) => Line::Remove(f(face)),
            Line::Split(face, s, d) => Line::Split(f(face), v(s), v(d)),
            Line::Poke(face, p) => Line::Poke(f(face), p),
            Line::Bridge(a, b) => Line::Bridge(f(a), f(b)),
            Line::Join(a, b, c, d) => Line::Join(v(a), v(b), v(c), v(d)),
            Line::Extrude(face, by) => Line::Extrude(f(face), by),
            Line::ArcExtrude(s, d, by) => Line::ArcExtrude(v(s), v(d), by),
            Line::Arity(face) => Line::Arity(f(face)),
            Line::Ring(face) => Line::Ring(f(face)),
            line @ (Line::Vertex(_) | Line::Check) => line,
        }
    }

    /// The call over lent tables.
    pub fn call(&self, lending: &mut Lending) -> Reply {
        let Lending { tables, counters, one, two } = lending;
        macro_rules! edit {
            ($call:ident($($given:expr),*)) => {
                calls::$call(tables.lend(), counters, one.lend(), two.lend(), $($given),*)
            };
        }
        match self {
            Line::Vertex([x, y, z]) => edit!(vertex_insert(*x, *y, *z)),
            Line::Face(mark, keys) => edit!(face_insert(*mark, keys)),
            Line::Remove(face) => edit!(face_remove(*face)),
            Line::Split(face, s, d) => edit!(face_split(*face, *s, *d)),
            Line::Poke(face, [x, y, z]) => edit!(face_poke(*face, *x, *y, *z)),
            Line::Bridge(f, g) => edit!(face_bridge(*f, *g)),
            Line::Join(a, b, c, d) => edit!(arc_bridge(*a, *b, *c, *d)),
            Line::Extrude(face, Move::Shift([x, y, z])) => edit!(face_extrude_shift(*face, *x, *y, *z)),
            Line::Extrude(face, Move::Scale { centre: [x, y, z], factor }) => {
                edit!(face_extrude_scale(*face, *x, *y, *z, *factor))
            }
            Line::ArcExtrude(s, d, Move::Shift([x, y, z])) => edit!(arc_extrude_shift(*s, *d, *x, *y, *z)),
            Line::ArcExtrude(s, d, Move::Scale { centre: [x, y, z], factor }) => {
                edit!(arc_extrude_scale(*s, *d, *x, *y, *z, *factor))
            }
            Line::Arity(face) => calls::face_arity(tables.show(), counters, *face),
            Line::Check => calls::check(tables.show(), counters),
            Line::Ring(_) => Reply::default(),
        }
    }

    /// The line's call through the type that owns its tables.
    pub fn call_mesh(&self, mesh: &mut Mesh) -> Answer {
        let vertex = |key: &u32| VertexKey(*key);
        let arc = |a: &u32, b: &u32| Arc(VertexKey(*a), VertexKey(*b));
        let ends = |arc: Arc| vec![arc.source().0, arc.destination().0];
        let answered: Result<Vec<u32>, Refusal> = match self {
            Line::Vertex(p) => mesh.vertex_insert(*p).map(|key| vec![key.0]),
            Line::Face(mark, keys) => {
                let keys: Vec<VertexKey> = keys.iter().map(vertex).collect();
                mesh.face_insert(*mark, &keys).map(|key| vec![key.0])
            }
            Line::Remove(face) => mesh.face_remove(FaceKey(*face)).map(|mark| vec![mark]),
            Line::Split(face, s, d) => mesh.face_split(FaceKey(*face), vertex(s), vertex(d)).map(ends),
            Line::Poke(face, p) => mesh.face_poke(FaceKey(*face), *p).map(|key| vec![key.0]),
            Line::Bridge(f, g) => mesh.face_bridge(FaceKey(*f), FaceKey(*g)).map(|()| vec![]),
            Line::Join(a, b, c, d) => mesh.arc_bridge(arc(a, b), arc(c, d)).map(|key| vec![key.0]),
            Line::Extrude(face, by) => mesh.face_extrude(FaceKey(*face), *by).map(|key| vec![key.0]),
            Line::ArcExtrude(s, d, by) => mesh.arc_extrude(arc(s, d), *by).map(ends),
            Line::Arity(face) => mesh.face_arity(FaceKey(*face)).map(|arity| vec![arity]),
            Line::Check => mesh.check().map(|()| vec![]),
            Line::Ring(face) => mesh.ring(FaceKey(*face)).map(|ring| ring.map(|vertex| vertex.key.0).collect()),
        };
        match answered {
            Ok(values) => Answer { number: 0, values },
            Err(refusal) => Answer::refused(refusal.number()),
        }
    }

    /// The values of a reply to this call, keys less the shift; none if a value stands where this call has none.
    pub fn answer(&self, reply: Reply, shift: Counters) -> Option<Answer> {
        if reply.number != 0 {
            let bare = Reply { number: reply.number, ..Reply::default() };
            return (reply == bare).then(|| Answer::refused(reply.number));
        }
        let vertex = |key: u32| key.wrapping_sub(shift[0]);
        let face = |key: u32| key.wrapping_sub(shift[2]);
        let Reply { key, source, destination, mark, arity, .. } = reply;
        let (values, told) = match self {
            Line::Vertex(_) | Line::Poke(..) => (vec![vertex(key)], Reply { key, ..Reply::default() }),
            Line::Face(..) | Line::Join(..) | Line::Extrude(..) => (vec![face(key)], Reply { key, ..Reply::default() }),
            Line::Remove(_) => (vec![mark], Reply { mark, ..Reply::default() }),
            Line::Split(..) | Line::ArcExtrude(..) => {
                (vec![vertex(source), vertex(destination)], Reply { source, destination, ..Reply::default() })
            }
            Line::Arity(_) => (vec![arity], Reply { arity, ..Reply::default() }),
            Line::Bridge(..) | Line::Check | Line::Ring(_) => (vec![], Reply::default()),
        };
        (reply == told).then_some(Answer { number: 0, values })
    }
}

impl fmt::Display for Line {
    fn fmt(&self, f: &mut fmt::Formatter<'_>) -> fmt::Result {
        write!(f, "{}", self.letter())?;
        match self {
            Line::Vertex(_) | Line::Check => {}
            Line::Face(mark, keys) => {
                write!(f, " {mark}")?;
                keys.iter().try_for_each(|key| write!(f, " {key}"))?;
            }
            Line::Remove(a) | Line::Poke(a, _) | Line::Extrude(a, _) | Line::Arity(a) | Line::Ring(a) => write!(f, " {a}")?,
            Line::Bridge(a, b) | Line::ArcExtrude(a, b, _) => write!(f, " {a} {b}")?,
            Line::Split(a, b, c) => write!(f, " {a} {b} {c}")?,
            Line::Join(a, b, c, d) => write!(f, " {a} {b} {c} {d}")?,
        }
        self.numbers().into_iter().try_for_each(|x| match x {
            x if x.fract() == 0.0 && x.abs() < 1e6 && x.to_bits() != (-0.0f64).to_bits() => write!(f, " {x}"),
            x => write!(f, " 0x{:016x}", x.to_bits()),
        })
    }
}
