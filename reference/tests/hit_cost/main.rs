//! How long a first hit can take: one found at tick h costs at most 2h + 11 probes,
//! and with a budget of that size or more it is never answered as spent. The archive's
//! four entries of a first hit against the reference and against these promises: hits
//! at every tick, with few probes and with the most; rays that start in a crossing
//! tick; searches that are spent. What any pattern of decided and undecided stretches
//! can cost; and that the same calls find a mistaken figure or search.

#[path = "../common/entries.rs"]
mod entries;
#[path = "../common/guards.rs"]
mod guards;
#[path = "../common/requests.rs"]
mod requests;

mod calls;
mod lines;
mod mistakes;
mod patterns;
mod promises;
mod seen;
mod spent;
mod starts;
mod ticks;
mod worst;
