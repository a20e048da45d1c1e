//! The bounds of one ball at whole places at its radius and just within it,
//! worked out by hand, and at all places near the sphere of small balls.

use crate::calls::place_bounds;
use crate::rays::{inner, plus, Vector, CENTRE, RADII};
use reference::field::Bounds;
use reference::part::FileBuilder;

/// A ball of this weight.
pub fn ball(r: i32, w: i16) -> FileBuilder {
    FileBuilder::new(1).point(r as u16, CENTRE.map(|c| c as i16), w)
}

/// Its bounds at a place from its centre.
fn bounds(r: i32, w: i16, from_centre: Vector) -> (i64, i64) {
    let answer = place_bounds(&ball(r, w).build(), plus(CENTRE, from_centre));
    let Bounds { low, high } = answer.expect("an accepted place");
    (low, high)
}

/// Both signs of weight: the bounds are 4,096 times the squares of the two q.
fn assert_q(r: i32, from_centre: Vector, qlo: i64, qhi: i64) {
    let (low, high) = (4096 * qlo * qlo, 4096 * qhi * qhi);
    assert_eq!(bounds(r, 4096, from_centre), (low, high));
    assert_eq!(bounds(r, -4096, from_centre), (-high, -low));
}

fn assert_all_q(r: i32, places: &[Vector], qlo: i64, qhi: i64) {
    for &place in places {
        assert_q(r, place, qlo, qhi);
    }
}

/// The places at this distance along each axis, in both directions.
fn on_axes(distance: i32) -> [Vector; 6] {
    [0, 1, 2, 3, 4, 5].map(|i| {
        let mut place = [0; 3];
        place[i % 3] = if i < 3 { distance } else { -distance };
        place
    })
}

/// At r - 1, u is (2r - 1)/r².
#[test]
fn along_each_axis() {
    for r in RADII {
        let within = 65536 * i64::from(2 * r - 1);
        let square = i64::from(r * r);
        let (down, up) = (within / square, (within + square - 1) / square);
        assert_all_q(r, &on_axes(r - 1), down, up);
        assert_all_q(r, &on_axes(r), 0, 0);
        assert_all_q(r, &on_axes(r + 1), 0, 0);
    }
    assert_all_q(1024, &on_axes(1023), 127, 128);
}

/// Squared distances r², r² - 1 where there are such places, and r² - 2 for
/// r 1,024, which has none of r² - 1; u is 1/r² and 2/r².
#[test]
fn oblique() {
    assert_q(3, [2, 1, -2], 0, 0);
    assert_q(5, [-4, 3, 0], 0, 0);
    assert_q(7, [3, -6, 2], 0, 0);
    assert_all_q(65, &[[-60, 0, 25], [63, -16, 0]], 0, 0);
    assert_all_q(1023, &[[682, 341, -682], [1022, -43, -14]], 0, 0);
    assert_q(1, [0, 0, 0], 65_536, 65_536);
    assert_q(2, [-1, 1, 1], 16_384, 16_384);
    assert_q(3, [2, 0, 2], 7_281, 7_282);
    assert_q(5, [4, -2, 2], 2_621, 2_622);
    assert_q(65, [8, 64, -8], 15, 16);
    assert_q(1024, [1023, 43, -14], 0, 1);
}

/// The radii of small balls, each with every whole place within r + 1 of the centre
/// along each axis, from the centre.
pub fn small_balls() -> impl Iterator<Item = (i32, Vector)> {
    [1, 2, 3, 5].into_iter().flat_map(|r| {
        let side = 2 * r + 3;
        let coordinates = move |n| [n % side, n / side % side, n / side / side];
        let places = (0..side * side * side).map(coordinates);
        places.map(move |place| (r, place.map(|c| c - r - 1)))
    })
}

/// Both bounds are 0 from r on, and not both within.
#[test]
fn all_places_of_small_balls() {
    for (r, place) in small_balls() {
        let within = inner(place, place) < r * r;
        assert_eq!(bounds(r, 4096, place) != (0, 0), within, "{r} {place:?}");
    }
}
