//! The running totals that the archive's counted calls leave: sequences of all
//! five, refusals and saved records among them, from zero and from values around
//! 2^32 and near the ceiling; the figure of 2,047 probes a cast, which speaks of
//! records that no marching cast has changed; and that the listed calls and saved
//! records find a mistake in adding and in reading.

#[path = "../common/calls.rs"]
mod calls;
#[path = "../common/counted.rs"]
mod counted;
#[path = "../common/coverage.rs"]
mod coverage;
#[path = "../common/floats.rs"]
mod floats;
#[path = "../common/limits.rs"]
mod limits;
#[path = "../common/requests.rs"]
mod requests;
#[path = "../common/saved.rs"]
mod saved;
#[path = "../common/sequences.rs"]
mod sequences;
#[path = "../common/worked.rs"]
mod worked;

mod archive;
mod figure;
mod mistakes;
mod restored;
mod runs;

use counted::{entries, expected, guards};
