//! The marching cast: the archive's plain and counted entries against the
//! reference, on worked and listed rays and on generated files and rays, with every
//! budget and every refusal; its marks against those of the archive's own full cast;
//! and that the same rays find a mistake in the march.

#[path = "../common/entries.rs"]
mod entries;
#[path = "../common/guards.rs"]
mod guards;
#[path = "../common/requests.rs"]
mod requests;
#[path = "../common/worked.rs"]
mod worked;

mod calls;
mod cases;
mod coverage;
mod cuts;
mod generated;
mod mistakes;
mod probes;
mod scenes;
