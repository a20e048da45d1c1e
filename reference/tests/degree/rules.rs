//! Bounds by a rule for the two sizes of a point: the right one, written out, and
//! mistaken ones. q is by the fractions, and so is all else.

use reference::field::{middle_of, q_range, tree_bounds_by, u_at, u_range, whole_place};
use reference::field::{Bounds, Place, Ray, SpanBounds};
use reference::fraction::Fraction;
use reference::part::{Degree, Part};
use std::marker::PhantomData;

/// The sizes that the lesser q and the greater one give.
pub trait Rule {
    fn sizes(degree: Degree, low: i64, high: i64) -> (i64, i64);
}

fn cube_over_65536(q: i64) -> Fraction {
    Fraction::new(i128::from(q).pow(3), 65_536).expect("denominator not 0")
}

fn down(q: i64) -> i64 {
    let floor = cube_over_65536(q).floor().to_i128();
    floor.expect("fits") as i64
}

fn up(q: i64) -> i64 {
    let ceil = cube_over_65536(q).ceil().to_i128();
    ceil.expect("fits") as i64
}

/// As the requests have it.
pub struct Right;

impl Rule for Right {
    fn sizes(degree: Degree, low: i64, high: i64) -> (i64, i64) {
        match degree {
            Degree::Four => (low * low, high * high),
            Degree::Six => (down(low), up(high)),
        }
    }
}

/// Degree 4 whatever the version: as document 01 has it.
pub struct Squares;

impl Rule for Squares {
    fn sizes(_: Degree, low: i64, high: i64) -> (i64, i64) {
        (low * low, high * high)
    }
}

/// Degree 6 whatever the version.
pub struct Cubes;

impl Rule for Cubes {
    fn sizes(_: Degree, low: i64, high: i64) -> (i64, i64) {
        (down(low), up(high))
    }
}

/// Degree 6 with both sizes rounded down.
pub struct HighDown;

impl Rule for HighDown {
    fn sizes(degree: Degree, low: i64, high: i64) -> (i64, i64) {
        match degree {
            Degree::Four => (low * low, high * high),
            Degree::Six => (down(low), down(high)),
        }
    }
}

/// Degree 6 with both sizes rounded up.
pub struct LowUp;

impl Rule for LowUp {
    fn sizes(degree: Degree, low: i64, high: i64) -> (i64, i64) {
        match degree {
            Degree::Four => (low * low, high * high),
            Degree::Six => (up(low), up(high)),
        }
    }
}

/// Degree 6 with the square rounded before it is multiplied by q.
pub struct SquareRounded;

impl Rule for SquareRounded {
    fn sizes(degree: Degree, low: i64, high: i64) -> (i64, i64) {
        match degree {
            Degree::Four => (low * low, high * high),
            Degree::Six => (
                low * low / 65_536 * low,
                (high * high + 65_535) / 65_536 * high,
            ),
        }
    }
}

/// Bounds of spans, middles and places by a rule.
pub struct By<R> {
    part: Part,
    ray: Ray,
    rule: PhantomData<R>,
}

/// The bounds at a place.
fn at<R: Rule>(part: &Part, place: &Place) -> Option<Bounds> {
    tree_bounds_by(part, |_, point| {
        let u = u_at(place, point);
        let (low, high) = q_range(&u, &u);
        Some(R::sizes(part.degree, low, high))
    })
}

/// The bounds at a whole-step place.
pub fn place_bounds<R: Rule>(part: &Part, place: [i32; 3]) -> Bounds {
    at::<R>(part, &whole_place(place)).expect("a tree")
}

impl<R: Rule> SpanBounds for By<R> {
    fn new(part: &Part, ray: Ray) -> By<R> {
        By {
            part: part.clone(),
            ray,
            rule: PhantomData,
        }
    }

    fn bounds(&self, first: u32, after: u32) -> Option<Bounds> {
        let [from, to] = [first, after].map(|tick| Fraction::new(i128::from(tick), 1024));
        let (from, to) = (from?, to?);
        tree_bounds_by(&self.part, |_, point| {
            let (least, greatest) = u_range(&self.ray, point, &from, &to);
            let (low, high) = q_range(&least, &greatest);
            Some(R::sizes(self.part.degree, low, high))
        })
    }

    fn middle(&self, tick: u32) -> Option<Bounds> {
        at::<R>(&self.part, &self.ray.place(&middle_of(tick)?))
    }
}
