//! Calls of the C entries as the slicing host makes them, each compared with
//! the reference: the number, every byte of the buffer or of the bounds and
//! around them, and the file, which stays as it was. They answer the reference's
//! answer.

#[path = "entries.rs"]
pub mod entries;
#[path = "expected.rs"]
mod expected;
#[path = "guards.rs"]
mod guards;

use expected::check_number;
use guards::{in_guards, GUARD as AROUND};
use reference::cast::{self, Column, FirstHit, FullCast};
use reference::field::{Bounds, Ray, SpanBounds};
use reference::march;
use reference::part;
use reference::quick::TickField;

/// The numbers of the bounds before a call, and around them.
const GUARD: i64 = 0x5a5a_5a5a_5a5a_5a5a;

/// The check of a file.
#[allow(dead_code)]
pub fn check(file: &[u8]) -> Result<(u32, u32), u32> {
    let copy = file.to_vec();
    let number = entries::check(&copy);
    assert_eq!(number, check_number(file), "{file:?}");
    assert_eq!(copy, file);
    part::check(file)
}

/// The bounds at a place.
#[allow(dead_code)]
pub fn place_bounds(file: &[u8], at: [i32; 3]) -> Result<Bounds, u32> {
    let copy = file.to_vec();
    let mut words = [[GUARD; 2]; 3];
    let number = entries::place_bounds(&copy, at, &mut words[1]);
    let answer = cast::bounds_at(file, at);
    let (expected, [low, high]) = match answer {
        Ok(bounds) => (65_536, [bounds.low, bounds.high]),
        Err(number) => (number, [GUARD; 2]),
    };
    assert_eq!(number, expected, "{at:?} {file:?}");
    assert_eq!(
        words,
        [[GUARD; 2], [low, high], [GUARD; 2]],
        "{at:?} {file:?}"
    );
    assert_eq!(copy, file);
    answer
}

/// A full cast.
#[allow(dead_code)]
pub fn full_cast(file: &[u8], ray: &Ray, budget: u32, room: usize) -> FullCast {
    let copy = file.to_vec();
    let (number, bytes) = in_guards(room, |b| entries::full_cast(&copy, ray, budget, b));
    let (answer, expected) = in_guards(room, |b| cast::full_cast(file, ray, budget, b));
    assert_eq!(number, answer.number(), "{ray:?} {budget} {room} {file:?}");
    assert_eq!(bytes, expected, "{ray:?} {budget} {room} {file:?}");
    assert_eq!(copy, file);
    answer
}

/// A marching cast.
#[allow(dead_code)]
pub fn marching_cast(file: &[u8], ray: &Ray, budget: u32, room: usize) -> FullCast {
    let copy = file.to_vec();
    let (number, bytes) = in_guards(room, |b| entries::marching_cast(&copy, ray, budget, b));
    let (answer, expected) = in_guards(room, |b| march::marching_cast(file, ray, budget, b));
    assert_eq!(number, answer.number(), "{ray:?} {budget} {room} {file:?}");
    assert_eq!(bytes, expected, "{ray:?} {budget} {room} {file:?}");
    assert_eq!(copy, file);
    answer
}

/// A first hit.
#[allow(dead_code)]
pub fn first_hit(file: &[u8], ray: &Ray, budget: u32) -> FirstHit {
    let copy = file.to_vec();
    let number = entries::first_hit(&copy, ray, budget);
    let answer = cast::first_hit(file, ray, budget);
    assert_eq!(number, answer.number(), "{ray:?} {budget} {file:?}");
    assert_eq!(copy, file);
    answer
}

/// A column.
#[allow(dead_code)]
pub fn column(file: &[u8], ray: &Ray, room: usize) -> Column {
    column_by::<TickField>(file, ray, room).0
}

/// A column by the bounds named, and the bytes of its buffer.
pub fn column_by<F: SpanBounds>(file: &[u8], ray: &Ray, room: usize) -> (Column, Vec<u8>) {
    let copy = file.to_vec();
    let (number, bytes) = in_guards(room, |b| entries::column(&copy, ray, b));
    let (answer, expected) = in_guards(room, |b| cast::column_by::<F>(file, ray, b));
    assert_eq!(number, answer.number(), "{ray:?} {room} {file:?}");
    assert_eq!(bytes, expected, "{ray:?} {room} {file:?}");
    assert_eq!(copy, file);
    (answer, bytes[AROUND..AROUND + room].to_vec())
}
