//! Plexus' side: the cloth as its graph, made anew before each call.

use crate::calls::{Answer, Call, Mesh, Stage};
use crate::cloth::{Asked, Cloth};
use crate::graph::{GraphError, MeshGraph};
use crate::records::Records;
use crate::sound;
use crate::timing::time;

pub struct Theirs {
    records: Records,
}

fn number(error: &GraphError) -> u32 {
    match error {
        GraphError::TopologyMalformed => 3,
        GraphError::TopologyNotFound => 4,
        GraphError::TopologyConflict => 5,
        GraphError::ArityNonUniform => 6,
        _ => unreachable!("no edit gives it"),
    }
}

/// The edit with the promise: what is left is sound, or as it was. The records of the mesh before it are at hand.
fn promised(graph: MeshGraph<Mesh>, call: &Call, before: &Records) -> (MeshGraph<Mesh>, Option<Records>, u32) {
    let (graph, answer) = graph.oracle_call(call);
    match answer {
        Answer::Done(_) => {
            let after = graph.oracle_records(before.counters);
            match sound::check(&after) {
                Ok(()) => (graph, Some(after), 0),
                Err(_) => (MeshGraph::oracle_from_records(before), None, 8),
            }
        }
        Answer::Unbound => (graph, None, 4),
        Answer::Refused(Stage::Cache, error) => (graph, None, number(&error)),
        Answer::Refused(Stage::Edit, error) => (MeshGraph::oracle_from_records(before), None, number(&error)),
    }
}

impl Theirs {
    pub fn new(cloth: &Cloth) -> Theirs {
        Theirs { records: cloth.records.clone() }
    }

    fn graph(&self) -> MeshGraph<Mesh> {
        MeshGraph::oracle_from_records(&self.records)
    }

    /// Sound is tested on all records. Then the vertices without an arc are counted, so that all are looked at, as the library does here, where
    /// they stand last.
    fn check(&self, graph: &MeshGraph<Mesh>) -> (u32, f64) {
        time(|| {
            if sound::check(&graph.oracle_records(self.records.counters)).is_err() {
                return 1;
            }
            match graph.vertices().filter(|vertex| vertex.outgoing_arcs().next().is_none()).count() {
                0 => 0,
                _ => 3,
            }
        })
    }

    /// The call's number, and how long it took with the promise.
    pub fn ask(&mut self, asked: &Asked) -> (u32, f64) {
        let graph = self.graph();
        match asked {
            Asked::Check => self.check(&graph),
            Asked::CheckAfter(call) => self.check(&graph.oracle_call(call).0),
            Asked::Call(call @ Call::Arity(_)) => {
                let ((_, answer), took) = time(|| graph.oracle_call(call));
                (if matches!(answer, Answer::Done(_)) { 0 } else { 4 }, took)
            }
            Asked::Call(call) => {
                let ((_graph, _records, number), took) = time(|| promised(graph, call, &self.records));
                (number, took)
            }
        }
    }

    /// How long the edit alone took; none for what is no edit.
    pub fn bare(&mut self, asked: &Asked) -> Option<f64> {
        let Asked::Call(call) = asked else { return None };
        if call.is_query() {
            return None;
        }
        let graph = self.graph();
        let ((_graph, _answer), took) = time(|| graph.oracle_call(call));
        Some(took)
    }
}
