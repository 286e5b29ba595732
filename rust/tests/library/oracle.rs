//! The oracle: a program around the Rust of plexus, which reads a script and prints every answer and every record. ORACLE_BIN names it.

use std::io::Write;
use std::process::{Command, Stdio};
use std::{env, thread};

/// What the oracle told of one line.
#[derive(Clone, Debug)]
pub struct Told {
    pub text: String,
    /// Its records afterwards, if they were printed.
    pub records: String,
}

/// Where a refusal arose.
#[derive(Clone, Copy, Debug, PartialEq)]
pub enum Stage {
    /// Before the first change.
    Before,
    /// In the edit.
    Edit,
}

impl Told {
    /// The keys of an accepted call, sound or not.
    pub fn keys(&self) -> Option<Vec<u32>> {
        let keys = self.text.strip_prefix("ok")?.split(" unsound").next()?;
        Some(keys.split_whitespace().map(|key| key.parse().expect("a key")).collect())
    }

    /// Why the result of an accepted edit is not sound.
    pub fn unsound(&self) -> Option<&str> {
        self.text.split_once(" unsound: ").map(|(_, reason)| reason)
    }

    pub fn refusal(&self) -> Option<(u32, Stage)> {
        let mut words = self.text.strip_prefix("no ")?.split(' ');
        let number = words.next()?.parse().expect("a refusal's number");
        let stage = if words.next_back() == Some("edit") { Stage::Edit } else { Stage::Before };
        Some((number, stage))
    }
}

pub fn program() -> String {
    env::var("ORACLE_BIN").expect("ORACLE_BIN names the oracle's program (`make rusttest` builds it)")
}

/// Runs a script: what was told of each line, with the records after each (or after the last alone).
pub fn ask(script: String, every_record: bool) -> Vec<Told> {
    run(script, &["--sound", "--names", if every_record { "--dump" } else { "--dump-end" }])
}

/// Runs a script whose lines are the steps of one edit: no mesh between them is called unsound and taken back.
pub fn ask_steps(script: String) -> Vec<Told> {
    run(script, &["--names"])
}

fn run(script: String, flags: &[&str]) -> Vec<Told> {
    let mut child = Command::new(program())
        .args(flags)
        .stdin(Stdio::piped())
        .stdout(Stdio::piped())
        .spawn()
        .unwrap_or_else(|error| panic!("{}: {error}", program()));
    let mut input = child.stdin.take().unwrap();
    let writer = thread::spawn(move || input.write_all(script.as_bytes()).expect("the oracle reads its script"));
    let output = child.wait_with_output().expect("the oracle ends");
    writer.join().unwrap();
    assert!(output.status.success(), "the oracle ended with {}", output.status);
    let mut told: Vec<Told> = vec![];
    for line in String::from_utf8(output.stdout).expect("text").lines() {
        match &line[..1] {
            "V" | "A" | "E" | "F" | "C" => {
                let records = &mut told.last_mut().expect("an answer comes first").records;
                records.push_str(line);
                records.push('\n');
            }
            _ if line.starts_with("end ") => {}
            _ => told.push(Told { text: line.into(), records: String::new() }),
        }
    }
    told
}
