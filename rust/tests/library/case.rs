//! A case: tables of some size, a mesh to start from, and lines. Run through the library and through the oracle, every answer and every record
//! compared, and with each call what document 01 says of rows, refusals and working room. A case that differs is shrunk.

use ullarvesp::{Mesh, Tables};

use crate::counts::Counts;
use crate::expect::{self, Before};
use crate::generate::{random_line, Profile};
use crate::line::{Answer, Lending, Line};
use crate::oracle::{self, Told};
use crate::records::{Counters, Records, Sizes};
use crate::rng::Rng;

#[derive(Clone, Debug)]
pub struct Case {
    pub sizes: Sizes,
    /// Rows that the rooms have beyond the mesh's: vertices, positions, arcs, edges, faces.
    pub extra: [usize; 5],
    /// What the library's keys are above the oracle's.
    pub shift: Counters,
    /// Where the rows of `start` stand: in key order, or scattered by this seed.
    pub scattered: Option<u64>,
    pub start: Records,
    pub lines: Vec<Line>,
    /// Whether records are compared after every line, or after the last alone.
    pub every_record: bool,
}

/// The first difference found.
#[derive(Clone, Debug)]
pub struct Difference {
    at: usize,
    what: String,
}

/// One call as the library made it.
struct Made {
    line: Line,
    before: Records,
    free: [usize; 3],
    keys: [u64; 3],
    answer: Answer,
    after: Records,
}

pub fn room(sizes: Sizes, extra: [usize; 5]) -> Tables {
    Tables {
        vertices: vec![[0; 2]; sizes[0] + extra[0]],
        positions: vec![[0.0; 3]; sizes[0] + extra[1]],
        arcs: vec![[0; 6]; 2 * sizes[1] + extra[2]],
        edges: vec![[0; 3]; sizes[1] + extra[3]],
        faces: vec![[0; 3]; sizes[2] + extra[4]],
    }
}

pub fn fill_with_rubbish(rng: &mut Rng, tables: &mut Tables) {
    let mut word = || rng.bits();
    tables.vertices.iter_mut().flatten().for_each(|cell| *cell = word() as u32);
    tables.positions.iter_mut().flatten().for_each(|cell| *cell = f64::from_bits(word()));
    tables.arcs.iter_mut().flatten().for_each(|cell| *cell = word() as u32);
    tables.edges.iter_mut().flatten().for_each(|cell| *cell = word() as u32);
    tables.faces.iter_mut().flatten().for_each(|cell| *cell = word() as u32);
}

/// Equal bit by bit, NaN and -0 told apart.
pub fn same_bits(a: &Tables, b: &Tables) -> bool {
    let bits = |t: &Tables| t.positions.iter().flatten().map(|x| x.to_bits()).collect::<Vec<u64>>();
    a.vertices == b.vertices && bits(a) == bits(b) && a.arcs == b.arcs && a.edges == b.edges && a.faces == b.faces
}

pub fn all_zero(t: &Tables) -> bool {
    let cells = t.vertices.iter().flatten().chain(t.arcs.iter().flatten()).chain(t.edges.iter().flatten()).chain(t.faces.iter().flatten());
    cells.copied().all(|cell| cell == 0) && t.positions.iter().flatten().all(|x| x.to_bits() == 0)
}

/// The rows of a table that are used before and not after count as free; new records must take the lowest free rows, in the order of `order`.
fn lowest_rows<const N: usize>(before: &[[u32; N]], after: &[[u32; N]], order: impl Fn(&[u32; N]) -> u32) -> Result<(), String> {
    let mut free = vec![];
    let mut new: Vec<(u32, usize)> = vec![];
    for (row, (old, now)) in before.iter().zip(after).enumerate() {
        let kept = old[0] != 0 && old[0] == now[0];
        if !kept {
            free.push(row);
            if now[0] != 0 {
                new.push((order(now), row));
            }
        }
    }
    new.sort_unstable();
    let rows: Vec<usize> = new.into_iter().map(|(_, row)| row).collect();
    if rows == free[..rows.len()] {
        Ok(())
    } else {
        Err(format!("new records stand in rows {rows:?}, the lowest free ones are {:?}", &free[..rows.len()]))
    }
}

/// "A new record takes the lowest unused row; rows freed by a removed face are used again"; no other record moves.
fn rows_placed(before: &Tables, after: &Tables) -> Result<(), String> {
    lowest_rows(&before.vertices, &after.vertices, |row| row[0])?;
    lowest_rows(&before.edges, &after.edges, |row| row[0])?;
    lowest_rows(&before.faces, &after.faces, |row| row[0])?;
    // Arcs: the named one of a new edge comes before the other, and edges come by their keys.
    let mut made: Vec<(u32, u32, u32)> = vec![];
    for (old, now) in before.edges.iter().zip(&after.edges).filter(|(old, now)| old[0] != now[0]) {
        assert!(old[0] == 0, "no edge is ever removed");
        made.push((now[0], now[1], now[2]));
    }
    made.sort_unstable();
    let rows: Vec<u32> = made.into_iter().flat_map(|(_, named, other)| [named, other]).collect();
    let free: Vec<u32> = before.arcs.iter().zip(1..).filter(|(row, _)| row[0] == 0).map(|(_, link)| link).collect();
    if rows != free[..rows.len()] {
        return Err(format!("new arcs stand at {rows:?}, the lowest free ones are {:?}", &free[..rows.len()]));
    }
    let moved = before.arcs.iter().zip(&after.arcs).any(|(old, now)| old[0] != 0 && old[..2] != now[..2]);
    if moved {
        return Err("an arc has moved".into());
    }
    Ok(())
}

impl Case {
    pub fn new(sizes: Sizes) -> Case {
        Case { sizes, extra: [0; 5], shift: [0; 3], scattered: None, start: Records::default(), lines: vec![], every_record: true }
    }

    pub fn lending(&self) -> Lending {
        let mut scatter = self.scattered.map(Rng::new);
        let (tables, counters) = self.start.to_tables(self.sizes, self.shift, scatter.as_mut());
        Lending { tables, counters, one: room(self.sizes, self.extra), two: room(self.sizes, self.extra) }
    }

    /// Adds so many random lines, each made by the mesh as the library has it by then.
    pub fn grow(&mut self, rng: &mut Rng, profile: &Profile, lines: usize) {
        let mut lending = self.lending();
        for _ in 0..lines {
            let mesh = Records::from_tables(&lending.tables, lending.counters, self.shift);
            let line = random_line(rng, &mesh, profile);
            line.shifted(self.shift).call(&mut lending);
            self.lines.push(line);
        }
    }

    /// One call of the library, and what document 01 says of every call: a refusal changes nothing, the rooms end zero, rows are the lowest.
    fn call(&self, line: &Line, lending: &mut Lending, rng: &mut Rng, counts: &mut Counts) -> Result<Answer, String> {
        fill_with_rubbish(rng, &mut lending.one);
        fill_with_rubbish(rng, &mut lending.two);
        let before = lending.clone();
        let reply = line.shifted(self.shift).call(lending);
        counts.answered(line.letter(), reply.number);
        let Some(answer) = line.answer(reply, self.shift) else { return Err(format!("a value too many: {reply:?}")) };
        if reply.number != 0 || line.is_query() {
            if !same_bits(&before.tables, &lending.tables) || before.counters != lending.counters {
                return Err(format!("refused or asked ({}), and the mesh has changed", reply.number));
            }
        } else {
            rows_placed(&before.tables, &lending.tables)?;
        }
        if line.is_query() {
            if !same_bits(&before.one, &lending.one) || !same_bits(&before.two, &lending.two) {
                return Err("a query has changed the rooms".into());
            }
        } else if !all_zero(&lending.one) || !all_zero(&lending.two) {
            return Err("a room is not all zero".into());
        }
        Ok(answer)
    }

    /// The walk of a ring, which only the crate has.
    fn ring(&self, line: &Line, lending: &Lending) -> Result<Answer, String> {
        let mut mesh = Mesh::from_tables(lending.tables.clone(), lending.counters).map_err(|refusal| refusal.to_string())?;
        let answer = line.shifted(self.shift).call_mesh(&mut mesh);
        let values = answer.values.iter().map(|key| key.wrapping_sub(self.shift[0])).collect();
        Ok(Answer { values, ..answer })
    }

    /// A call through the type that owns its tables answers the same number and leaves the same tables.
    fn call_twin(&self, line: &Line, mesh: &mut Mesh, lending: &Lending, answer: &Answer) -> Result<(), String> {
        let owned = line.shifted(self.shift).call_mesh(mesh);
        let same = same_bits(mesh.tables(), &lending.tables) && mesh.counters() == lending.counters;
        if owned.number == answer.number && same {
            return Ok(());
        }
        Err(format!("Mesh answers {owned:?}, the call {answer:?}; the same tables: {same}"))
    }

    /// Runs the case. The counts of what was called, and the first difference, if there is one.
    pub fn run(&self, counts: &mut Counts) -> Result<(), Difference> {
        let mut rng = Rng::new(self.lines.len() as u64 + 1);
        let mut lending = self.lending();
        let mut twin = (self.sizes[0] <= 300).then(|| Mesh::from_tables(lending.tables.clone(), lending.counters).ok()).flatten();
        let mut made = vec![];
        let mut after = Records::from_tables(&lending.tables, lending.counters, self.shift);
        let mut script = format!("load\n{}", after.dump());
        for (at, line) in self.lines.iter().enumerate() {
            let before = after;
            let Before { free, keys, .. } = Before::of(&before, &lending.tables, lending.counters);
            let answer = match line {
                Line::Ring(_) => self.ring(line, &lending),
                _ => self.call(line, &mut lending, &mut rng, counts),
            };
            let answer = answer.map_err(|what| Difference { at, what })?;
            if let Some(mesh) = &mut twin {
                self.call_twin(line, mesh, &lending, &answer).map_err(|what| Difference { at, what })?;
            }
            after = Records::from_tables(&lending.tables, lending.counters, self.shift);
            script.push_str(&format!("{line}\n"));
            if [7, 13].contains(&answer.number) {
                script.push_str(&format!("load\n{}", after.dump()));
            }
            let full = free[2] == 0 && (3..=6).contains(&answer.number);
            if full && !line.is_query() {
                counts.note("refused by 3 to 6 with no free face row");
            }
            made.push(Made { line: line.clone(), before, free, keys, answer, after: after.clone() });
        }
        if let Some(mesh) = &twin {
            let plain = Records::from_tables(mesh.tables(), mesh.counters(), [0; 3]);
            if Records::from_mesh(mesh) != plain {
                return Err(Difference { at: self.lines.len(), what: "the crate's iterators and the rows differ".into() });
            }
        }
        self.compare(made, oracle::ask(script, self.every_record), counts)
    }

    fn compare(&self, made: Vec<Made>, told: Vec<Told>, counts: &mut Counts) -> Result<(), Difference> {
        let mut told = told.into_iter();
        let loaded = told.next().map(|told| told.text);
        if loaded.as_deref() != Some("ok") {
            return Err(Difference { at: 0, what: format!("the oracle can't load the mesh: {loaded:?}") });
        }
        let last = made.len();
        for (at, made) in made.into_iter().enumerate() {
            let differs = |what: String| Err(Difference { at, what });
            let Some(mut said) = told.next() else { return differs("the oracle has no answer".into()) };
            let before = Before { mesh: &made.before, free: made.free, keys: made.keys };
            let wanted = expect::answer(&made.line, &before, &said);
            if wanted.as_ref() != Ok(&made.answer) {
                return differs(format!("{}\nthe library: {:?}\nwanted: {wanted:?}\nthe oracle: {}", made.line, made.answer, said.text));
            }
            if [7, 13].contains(&made.answer.number) {
                let rust = if said.refusal().is_none() { "accepts" } else { "refuses" };
                counts.note(&format!("{} where the oracle {rust}", made.answer.number));
                said = told.next().expect("the mesh loaded again");
                if said.text != "ok" {
                    return differs(format!("the oracle can't load the mesh again: {}", said.text));
                }
            }
            let half_done = said.refusal().is_some_and(|(_, stage)| stage == oracle::Stage::Edit) && !matches!(made.line, Line::Join(..));
            if half_done && (3..=6).contains(&made.answer.number) {
                counts.note("refused in mid-edit");
            }
            let compared = self.every_record || at + 1 == last;
            if compared && said.records != made.after.dump() {
                return differs(format!("{}\n{}", made.line, record_lines(&made.after.dump(), &said.records)));
            }
        }
        Ok(())
    }

    /// Runs the case; if it differs, finds the fewest lines that still do, and panics with them.
    pub fn hold(&self, counts: &mut Counts) {
        if self.run(counts).is_err() {
            let smallest = self.shrunk();
            let difference = smallest.run(&mut Counts::default()).expect_err("it still differs");
            panic!("differs at line {}: {}\n{smallest}", difference.at + 1, difference.what);
        }
    }

    fn shrunk(&self) -> Case {
        let mut smallest = self.clone();
        let mut chunk = (smallest.lines.len() / 2).max(1);
        loop {
            let mut shorter = false;
            let mut at = 0;
            while at < smallest.lines.len() {
                let mut fewer = smallest.clone();
                let end = (at + chunk).min(fewer.lines.len());
                fewer.lines.drain(at..end);
                if fewer.run(&mut Counts::default()).is_err() {
                    smallest = fewer;
                    shorter = true;
                } else {
                    at += chunk;
                }
            }
            if chunk == 1 && !shorter {
                return smallest;
            }
            chunk = (chunk / 2).max(1);
        }
    }
}

/// The lines that only one of two dumps has.
fn record_lines(ours: &str, theirs: &str) -> String {
    let only = |a: &str, b: &str, who: &str| {
        a.lines().filter(|line| !b.lines().any(|other| other == *line)).map(|line| format!("{who}: {line}\n")).collect::<String>()
    };
    only(ours, theirs, "the library") + &only(theirs, ours, "the oracle")
}

impl std::fmt::Display for Case {
    fn fmt(&self, f: &mut std::fmt::Formatter<'_>) -> std::fmt::Result {
        writeln!(
            f,
            "tables {:?}, rooms with {:?} more rows, keys above by {:?}, rows scattered by {:?}",
            self.sizes, self.extra, self.shift, self.scattered
        )?;
        if self.start != Records::default() {
            write!(f, "load\n{}", self.start.dump())?;
        }
        self.lines.iter().try_for_each(|line| writeln!(f, "{line}"))
    }
}
