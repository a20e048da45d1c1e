//! The reference of the ray caster for trees of soft points, written from the
//! rules alone: with exact fractions, and with a quick path beside them.
//!
//! - [`big`]: whole numbers of any size.
//! - [`fraction`]: exact fractions.
//! - [`part`]: the part file, its questions and a builder.
//! - [`write`]: the numbers of a part's nodes, and part files written from them.
//! - [`field`]: the exact field, bounds of spans and places, the tolerance.
//! - [`quick`]: bounds of spans and middles with whole numbers at their ends.
//! - [`cast`]: bounds at a place, full cast, first hit and column.
//! - [`march`]: the marching full cast.
//! - [`view`]: the viewer's first hit.
//! - [`lister`]: the ray lister's text.
//! - [`totals`]: the running totals, and saved records of them.
//! - [`generate`]: repeatable pseudo-random trees, rays, damaged files and totals.
//! - [`walls`]: walls of known thickness.

#![forbid(unsafe_code)]
#![warn(missing_docs)]

pub mod big;
pub mod cast;
pub mod field;
pub mod fraction;
pub mod generate;
pub mod lister;
pub mod march;
pub mod part;
pub mod quick;
pub mod totals;
pub mod view;
pub mod walls;
pub mod write;
