//! Degree 6, which version 2 of a part file means: the archive's places, casting calls
//! and writer against the exact fractions, on parts of version 2 and on the same parts
//! of version 1. Sizes at the limits of q; the accuracy with degree 6's figures; every
//! version at each entry; a reader of the first form; and that these calls find
//! mistakes.

#[path = "../no_length/calls.rs"]
mod calls;
#[allow(dead_code)]
#[path = "../common/drawings.rs"]
mod drawings;
#[path = "../common/entries.rs"]
mod entries;
#[path = "../common/expected.rs"]
mod expected;
#[path = "../common/guards.rs"]
mod guards;
#[path = "../common/requests.rs"]
mod requests;
#[path = "../common/worked.rs"]
mod worked;

mod accuracy;
mod casts;
mod mistakes;
mod rules;
mod scenes;
mod sizes;
mod versions;
mod writes;
