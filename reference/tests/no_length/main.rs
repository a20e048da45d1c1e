//! Rays of no length, whose ends coincide: every tick is the one place, marked by
//! that place's bounds. The archive's five casting calls, plain and counted, against
//! the exact fractions: at places worked out by hand and at drawn ones, inside, outside
//! and undecided; with every budget; with floats of either zero. The order of the
//! questions; the accuracy with S equal to 0; and that the same places find mistakes.

#[path = "../common/entries.rs"]
mod entries;
#[path = "../common/floats.rs"]
mod floats;
#[path = "../common/guards.rs"]
mod guards;
#[path = "../common/requests.rs"]
mod requests;

mod budgets;
mod calls;
mod drawn;
mod listed;
mod mistakes;
mod order;
mod scenes;
mod views;
