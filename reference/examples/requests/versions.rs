//! How often a stream's files and drawings are of each version, and how often a file of
//! version 2 is answered otherwise than it would be as version 1.

use crate::limited::grouped;
use crate::request::{casting, Request, BOUNDS, CALLS, RESTORE, WRITE};

const NAMES: [&str; 3] = [
    "version 1",
    "version 2",
    "version 2, answered otherwise than as version 1",
];

/// Accepted requests by what is seen and by call.
#[derive(Default)]
pub struct Versions([[i64; CALLS]; NAMES.len()]);

/// Whether the call goes by the field, so that its answer can change with the version.
fn is_of_field(call: u8) -> bool {
    casting(call).is_some() || call == BOUNDS
}

/// Where a file's version stands.
fn version_at(file: &[u8]) -> usize {
    file.len() - 10
}

/// The same request on the file as version 1.
fn as_version_1(request: &Request) -> Request {
    let mut other = request.clone();
    let at = version_at(&other.file);
    other.file[at] = 1;
    other.answered()
}

impl Versions {
    /// Counts an answered request, if it is not refused and has a version.
    pub fn count(&mut self, request: &Request) {
        if request.call == RESTORE || !request.is_accepted() {
            return;
        }
        let version = match request.call {
            WRITE => request.drawing.version,
            _ => request.file[version_at(&request.file)].into(),
        };
        let call = usize::from(request.call);
        self.0[version as usize - 1][call] += 1;
        if version == 2 && is_of_field(request.call) {
            let other = as_version_1(request);
            let differs = other.number != request.number || other.written != request.written;
            self.0[2][call] += i64::from(differs);
        }
    }

    /// The count of each in each call that has it, and their name.
    pub fn counts(&self) -> Vec<(i64, String)> {
        let all = self.0.iter().enumerate().flat_map(|(i, counts)| {
            let calls = (0..RESTORE).filter(move |&call| i < 2 || is_of_field(call));
            calls.map(move |call| {
                let name = format!("{}, call {call}", NAMES[i]);
                (counts[usize::from(call)], name)
            })
        });
        all.collect()
    }

    /// A line of the table for each.
    pub fn table(&self) -> String {
        let lines = self.0.iter().zip(NAMES).map(|(counts, name)| {
            let requests = grouped(counts.iter().sum());
            format!("| {name} | {requests} |\n")
        });
        lines.fold("| Accepted, of | Requests |\n|---|---|\n".into(), |a, b| {
            a + &b
        })
    }
}
