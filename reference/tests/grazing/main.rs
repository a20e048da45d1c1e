//! Rays that graze a ball: the archive, and the benchmark's plain column, against
//! the exact fractions on rays that come to a point's radius, just within it and
//! just not; and that these rays, and places, find a mistake in the test that
//! settles whether a span comes within the radius.

#[path = "../exact_calls/calls.rs"]
mod calls;
#[path = "../common/entries.rs"]
mod entries;
#[path = "../common/guards.rs"]
mod guards;
#[path = "../../examples/column/plain.rs"]
mod plain;

mod casts;
mod generated;
mod mistakes;
mod parts;
mod places;
mod rays;
