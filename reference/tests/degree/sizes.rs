//! Sizes by the bounds of one point at whole-step places: at the least q and the
//! greatest, and at every whole q of a ball. q is worked out from squared distances by
//! document 01, and the sizes from q by request P9, in whole numbers.

use crate::casts::at_place;
use reference::part::FileBuilder;
use std::collections::BTreeMap;

const WEIGHTS: [i16; 4] = [1, -1, 4096, -4096];

/// Both q of a point of radius r at a squared distance d: 65536 u rounded down and up.
fn both_q(r: i64, d: i64) -> [i64; 2] {
    let squared = r * r;
    let scaled = 65_536 * (squared - d).max(0);
    [scaled / squared, (scaled + squared - 1) / squared]
}

/// Both sizes of both q, in units of 1/2^32: of a cube over 65,536 the lesser rounded
/// down, the greater rounded up.
fn sizes([low, high]: [i64; 2]) -> [i64; 2] {
    [low.pow(3) >> 16, (high.pow(3) + 65_535) >> 16]
}

/// The archive's bounds of points of radius r at the origin, of each weight.
fn assert_sizes(r: i64, at: [i32; 3]) {
    let d = at.iter().map(|&c| i64::from(c * c)).sum();
    let [low, high] = sizes(both_q(r, d));
    for w in WEIGHTS {
        let file = FileBuilder::new(1).version(2).point(r as u16, [0; 3], w);
        let w = i64::from(w);
        let expected = if w < 0 {
            [w * high, w * low]
        } else {
            [w * low, w * high]
        };
        assert_eq!(
            at_place(&file.build(), at),
            (65_536, expected),
            "{r} {at:?}"
        );
    }
}

/// Places near the centre and near the radius of balls, one for each radius and each
/// pair of q.
fn places() -> BTreeMap<[i64; 2], (i64, [i32; 3])> {
    let mut places = BTreeMap::new();
    let mut add = |r: i64, at: [i64; 3]| {
        let d = at.iter().map(|c| c * c).sum();
        let at = at.map(|c| c as i32);
        places.entry(both_q(r, d)).or_insert((r, at));
    };
    for r in 1..=1024 {
        for (y, z) in (0..=30).flat_map(|y| (0..=y).map(move |z| (y, z))) {
            (0..=2).for_each(|x| add(r, [x, y, z]));
            let left = r * r - y * y - z * z;
            if left > 0 {
                (0..=1).for_each(|more| add(r, [left.isqrt() + more, y, z]));
            }
        }
    }
    places
}

/// Each of these q is the lesser one at some place and the greater one at another. Of
/// those whose cube is no multiple of 65,536 the two roundings differ from each other
/// and from the exact size.
#[test]
fn sizes_at_the_limits_of_q() {
    let limits = (0..=20).chain(40..=42).chain(65_500..=65_536);
    let places = places();
    let (mut tried, mut rounded) = (0, 0);
    for q in limits {
        let with = |i: usize| places.iter().filter(move |(both, _)| both[i] == q);
        assert!(with(0).next().is_some() && with(1).next().is_some(), "{q}");
        for (_, &(r, at)) in with(0).chain(with(1)) {
            assert_sizes(r, at);
            tried += 1;
        }
        let [down, up] = sizes([q, q]);
        let whole = q.pow(3) % 65_536 == 0;
        assert_eq!(down == up, whole);
        assert!(whole || down * 65_536 < q.pow(3) && q.pow(3) < up * 65_536);
        rounded += u32::from(!whole);
    }
    println!("{tried} places, {rounded} q with a rounded cube");
    assert!(tried >= 120 && rounded >= 55);
}

/// A ball of r 256 has q 65,536 - d, exactly, at a whole step of squared distance d:
/// the sizes of every such q.
#[test]
fn every_whole_q_of_a_ball() {
    let mut nearest = vec![None; 65_537];
    for (x, y) in (0..=256).flat_map(|x| (0..=x).map(move |y| (x, y))) {
        for z in 0..=y {
            let d = (x * x + y * y + z * z) as usize;
            if let Some(place) = nearest.get_mut(d) {
                *place = Some([x, -y, z]);
            }
        }
    }
    let places: Vec<[i32; 3]> = nearest.into_iter().flatten().collect();
    places.iter().for_each(|&at| assert_sizes(256, at));
    println!("{} q", places.len());
    assert_eq!(places.len(), 54_615);
}
