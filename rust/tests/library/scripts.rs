//! Random scripts through the library and the oracle: every answer, every record.

use std::fs;

use crate::case::Case;
use crate::counts::Counts;
use crate::generate::{self, disturb, fan, filled, grid, Profile};
use crate::line::Line;
use crate::records::{Records, Sizes};
use crate::repeat;
use crate::rng::Rng;

const PROFILES: [Profile; 5] = [generate::TINY, generate::SMALL, generate::REMOVING, generate::BRIDGING, generate::BIG];

/// Rooms as large as the mesh, or in one of three cases larger, table by table.
fn extra(rng: &mut Rng) -> [usize; 5] {
    if rng.chance(0.67) {
        [0; 5]
    } else {
        std::array::from_fn(|_| rng.below(6))
    }
}

fn case(rng: &mut Rng, sizes: Sizes) -> Case {
    Case { extra: extra(rng), ..Case::new(sizes) }
}

#[test]
fn from_an_empty_mesh() {
    let counts = repeat("from an empty mesh", 4.0, |rng, counts| {
        let sizes = rng.pick(&[[64, 128, 64], [64, 128, 64], [300, 600, 300]]);
        let mut case = case(rng, sizes);
        let profile = rng.pick(&PROFILES);
        case.grow(rng, &profile, 40);
        case.hold(counts);
    });
    counts.must_have_met("13", counts.with(13) > 0);
}

#[test]
fn in_tiny_tables() {
    let counts = repeat("in tiny tables", 4.0, |rng, counts| {
        let sizes = match rng.below(4) {
            0 => rng.pick(&[[0, 0, 0], [1, 0, 0], [0, 3, 3], [3, 3, 1], [3, 0, 2], [4, 5, 2], [6, 9, 4], [8, 12, 6]]),
            _ => [rng.between(3, 20), rng.between(3, 36), rng.between(1, 16)],
        };
        let mut case = case(rng, sizes);
        case.grow(rng, &generate::FULL, 40);
        case.hold(counts);
    });
    counts.must_have_met("7", counts.with(7) > 0);
    let full = "refused by 3 to 6 with no free face row";
    counts.must_have_met(full, counts.noted(full) > 0);
}

#[test]
fn with_faces_up_to_64() {
    repeat("with faces up to 64 vertices", 0.4, |rng, counts| {
        let mut case = case(rng, [300, 600, 300]);
        case.start = filled(rng, [300, 600, 300], [40, 300, 200], &[3, 4, 30, 63, 64, 64]);
        if rng.chance(0.5) {
            disturb(rng, &mut case.start);
        }
        case.grow(rng, &Profile { most: usize::MAX, ..generate::WIDE }, 30);
        case.hold(counts);
    });
}

#[test]
fn in_tables_nearly_full() {
    let counts = repeat("in tables nearly full", 1.0, |rng, counts| {
        let sizes = rng.pick(&[[64, 128, 64], [64, 128, 64], [300, 600, 300]]);
        let free = [rng.below(12), rng.below(24), rng.below(12)];
        let mut case = case(rng, sizes);
        case.start = filled(rng, sizes, free, &[3, 3, 4, 4, 5, 6]);
        case.scattered = rng.chance(0.5).then(|| rng.bits());
        // Rows that polygons leave free are taken by cutting the tables.
        let used = [case.start.vertices.len(), case.start.edges.len(), case.start.faces.len()];
        case.sizes = std::array::from_fn(|kind| used[kind] + free[kind]);
        case.grow(rng, &generate::FULL, 30);
        case.hold(counts);
    });
    counts.must_have_met("7", counts.with(7) > 0);
}

#[test]
fn at_the_limits() {
    repeat("at the limits, 4,096/8,192/4,096", 0.04, |rng, counts| {
        let sizes = [4096, 8192, 4096];
        let fills: [(Sizes, &[usize]); 4] =
            [([0, 0, 0], &[3, 3, 4]), ([6, 0, 0], &[3, 4, 5, 64]), ([700, 0, 0], &[64, 64, 63]), ([2000, 0, 0], &[3, 4])];
        let (free, arities) = rng.pick(&fills);
        let mut case = case(rng, sizes);
        case.start = if rng.chance(0.4) { grid(63, 62) } else { filled(rng, sizes, free, arities) };
        case.scattered = rng.chance(0.7).then(|| rng.bits());
        case.every_record = false;
        case.grow(rng, &generate::FULL, 16);
        case.hold(counts);
    });
}

/// Round one vertex there are more arcs than the library lists near an edit, so that it keeps all arcs and tests all tables.
#[test]
fn with_more_arcs_near_than_are_listed() {
    let counts = repeat("with more arcs near an edit than are listed", 0.1, |rng, counts| {
        let mut case = case(rng, [1400, 3000, 1400]);
        case.start = fan(1030 + rng.below(100) as u32);
        if rng.chance(0.3) {
            disturb(rng, &mut case.start);
        }
        case.scattered = rng.chance(0.5).then(|| rng.bits());
        case.every_record = false;
        case.grow(rng, &generate::FULL, 16);
        case.hold(counts);
    });
    counts.must_have_met("a refusal after the first change", counts.with(8) + counts.noted("refused in mid-edit") > 0);
}

/// A sound mesh that no script need reach: a script's mesh with links, names, keys and counters changed, in scattered rows.
pub fn disturbed(rng: &mut Rng, sizes: Sizes) -> Case {
    let profile = rng.pick(&PROFILES);
    let mut grown = Case::new(sizes);
    grown.grow(rng, &profile, 25);
    let mut lending = grown.lending();
    for line in &grown.lines {
        line.call(&mut lending);
    }
    let mut case = case(rng, sizes);
    case.start = Records::from_tables(&lending.tables, lending.counters, [0; 3]);
    disturb(rng, &mut case.start);
    case.scattered = Some(rng.bits());
    case
}

#[test]
fn from_meshes_that_no_script_reaches() {
    let counts = repeat("from meshes that no script reaches", 4.0, |rng, counts| {
        let sizes = rng.pick(&[[64, 128, 64], [100, 200, 100], [300, 600, 300]]);
        let mut case = disturbed(rng, sizes);
        let profile = rng.pick(&PROFILES);
        case.grow(rng, &profile, 30);
        case.hold(counts);
    });
    let half_done = "refused in mid-edit";
    counts.must_have_met(half_done, counts.noted(half_done) > 0);
}

/// Keys are as many as rows and more, up to 4,294,967,294: the library's counters start near their top, the oracle's low.
#[test]
fn up_to_the_last_key() {
    let counts = repeat("up to the last key", 2.0, |rng, counts| {
        let mut case = disturbed(rng, [64, 128, 64]);
        let left = [rng.below(16), rng.below(30), rng.below(16)];
        case.shift = std::array::from_fn(|kind| match rng.below(4) {
            0 => rng.bits() as u32 >> 1,
            _ => u32::MAX - case.start.counters[kind] - left[kind] as u32,
        });
        case.grow(rng, &generate::FULL, 30);
        case.hold(counts);
    });
    counts.must_have_met("7", counts.with(7) > 0);
}

/// The oracle's own cases. Lines that only the oracle has are left out; a `load` starts another case.
#[test]
fn the_cases_of_the_oracle() {
    let folder = std::env::var("ORACLE_CASES").expect("ORACLE_CASES names the folder of the oracle's cases (`make rusttest` sets it)");
    let mut counts = Counts::default();
    let mut cases = 0;
    for entry in fs::read_dir(&folder).unwrap_or_else(|error| panic!("{folder}: {error}")) {
        let path = entry.expect("a file").path();
        if path.extension().is_some_and(|extension| extension == "in") {
            let text = fs::read_to_string(&path).expect("a script");
            cases_of(&text).iter().for_each(|case| case.hold(&mut counts));
            cases += 1;
        }
    }
    println!("the oracle's cases: {cases}, {} calls, none different\n{counts}", counts.calls());
    assert!(cases >= 20, "{folder} has {cases} cases");
}

fn cases_of(script: &str) -> Vec<Case> {
    let mut cases = vec![Case::new([128, 256, 128])];
    let mut loading: Option<Records> = None;
    for text in script.lines() {
        if let Some(mut records) = loading.take() {
            if records.read(text) {
                cases.push(Case { start: records, ..Case::new([128, 256, 128]) });
            } else {
                loading = Some(records);
            }
        } else if text == "load" {
            loading = Some(Records::default());
        } else if let Some(line) = Line::read(text) {
            cases.last_mut().unwrap().lines.push(line);
        }
    }
    cases
}
