//! The library held against the Rust of plexus, through the oracle, and against document 01 where the Rust has no say.
//!
//! Needs ORACLE_BIN, the oracle's program, and ORACLE_CASES, the folder of its cases; `make rusttest` sets both. ULLARVESP_SCRIPTS (default
//! 250) says how many scripts a test runs, more or fewer as they are short or long; ULLARVESP_SEED (default 1) says which.
//! `cargo test -- --nocapture` prints how often each call was answered by each number.

mod case;
mod counts;
mod damages;
mod expect;
mod generate;
mod limits;
mod line;
mod oracle;
mod records;
mod rng;
mod scripts;
mod sound;
mod spots;
mod stack;

use counts::Counts;
use rng::Rng;

fn variable(name: &str, default: u64) -> u64 {
    match std::env::var(name) {
        Ok(text) => text.parse().unwrap_or_else(|_| panic!("{name} is no number: {text}")),
        Err(_) => default,
    }
}

/// Runs a test on as many seeds as its share of ULLARVESP_SCRIPTS, and prints what was counted.
fn repeat(name: &str, share: f64, mut test: impl FnMut(&mut Rng, &mut Counts)) -> Counts {
    let scripts = ((variable("ULLARVESP_SCRIPTS", 250) as f64 * share).ceil() as u64).max(1);
    let mut counts = Counts::default();
    for script in 0..scripts {
        let mut rng = Rng::new(variable("ULLARVESP_SEED", 1) << 32 | script << 8 | name.len() as u64);
        test(&mut rng, &mut counts);
    }
    println!("{name}: {scripts} scripts, {} calls, none different\n{counts}", counts.calls());
    counts
}
