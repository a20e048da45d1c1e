//! The archive's writer, and its reader of nodes, against the reference: every
//! question at its limits and in its order, 20,000 generated drawings, generated
//! files, and the parts of `examples/parts` read and written.

#[path = "../common/drawings.rs"]
mod drawings;
#[path = "../common/entries.rs"]
mod entries;
#[path = "../common/expected.rs"]
mod expected;
#[path = "../common/guards.rs"]
mod guards;
#[path = "../common/requests.rs"]
mod requests;

mod calls;
mod generated;
mod limits;
mod order;
mod places;
mod reading;
mod round_trips;
