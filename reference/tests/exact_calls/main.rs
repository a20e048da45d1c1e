//! The archive against the exact fractions: every call on all cases of "Rays
//! and places tried" and on 50,000 generated requests, of which 40,000 are
//! casts, each made plain and counted. Nothing here takes the quick path.

#[path = "../common/entries.rs"]
mod entries;
#[path = "../common/floats.rs"]
mod floats;
#[path = "../common/guards.rs"]
mod guards;
#[path = "../common/requests.rs"]
mod requests;
#[path = "../common/worked.rs"]
mod worked;

mod calls;
mod cases;
mod coverage;
mod generated;
