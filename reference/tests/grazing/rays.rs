//! The rays. A graze is a ball and a ray that comes near its radius; whether it
//! comes within follows from how it is made.
//!
//! - Tangents: the ray's line passes the centre at a distance of exactly r - 1, r
//!   or r + 1, along each axis in both directions and oblique, with the foot at
//!   each of `FEET`.
//! - Ends: the foot lies outside the ray, and the nearer end is at a distance of
//!   exactly r - 1, r or r + 1.
//! - Moved: an oblique tangent at exactly r, moved one step in or out along an
//!   axis.
//! - Chords: the line goes through a place at a distance of exactly r and is within
//!   the ball for less than two steps from there. At the foot of the shortest rays
//!   r² exceeds d² by 1/|B - A|², the least by which it can.

use reference::field::{u_range, Ray};
use reference::fraction::Fraction;
use reference::part::{Kind, Node, REACH};
use std::collections::BTreeSet;

pub type Vector = [i32; 3];

/// The centre of the balls of `grazes`.
pub const CENTRE: Vector = [3, -5, 7];
/// The radii of tangents and ends.
pub const RADII: [i32; 7] = [1, 2, 3, 5, 7, 65, 1024];
/// The radii of moved rays: each is a whole multiple of an oblique length.
const MOVED_RADII: [i32; 6] = [3, 5, 7, 65, 1020, 1022];

/// A direction, a vector at right angles to it, and that vector's length.
type Line = (Vector, Vector, i32);

const LINES: [Line; 14] = [
    // along each axis, in both directions
    ([1, 0, 0], [0, 1, 0], 1),
    ([-1, 0, 0], [0, 0, -1], 1),
    ([0, 1, 0], [0, 0, 1], 1),
    ([0, -1, 0], [-1, 0, 0], 1),
    ([0, 0, 1], [1, 0, 0], 1),
    ([0, 0, -1], [0, -1, 0], 1),
    // oblique, across an axis
    ([3, 4, 0], [0, 0, 1], 1),
    ([0, -1, 1], [-1, 0, 0], 1),
    // oblique, both of whole length
    ([3, 4, 0], [-4, 3, 0], 5),
    ([0, -4, -3], [0, 3, -4], 5),
    ([5, 0, -12], [12, 0, 5], 13),
    ([1, 2, 2], [2, 1, -2], 3),
    ([-2, 2, -1], [1, 2, 2], 3),
    ([2, 3, 6], [3, -6, 2], 7),
];

/// Where the foot lies: the ray goes from so many directions before it to so
/// many after it, or by the same multiple of both.
const FEET: [(i32, i32); 7] = [
    // in the middle of the ray, where its halves meet
    (1, 1),
    // where two eighths of the ray meet
    (3, 5),
    // where ticks 340 and 341 meet
    (341, 683),
    // inside tick 341, and inside tick 877
    (1, 2),
    (6, 1),
    // at the start, and at the end
    (0, 1),
    (1, 0),
];

/// A radius, a place at exactly this distance from the centre, and a direction
/// whose inner product with it is -1. At s directions from the place r² exceeds d²
/// by 2s - a s², a being the direction's square: by 1/a at the foot, s = 1/a, and
/// not from s = 2/a on.
pub const CHORDS: [(i32, Vector, Vector); 9] = [
    (1, [1, 0, 0], [-1, 3, 5]),
    (1, [0, -1, 0], [900, 1, -700]),
    (3, [2, 1, -2], [1, -1, 1]),
    (5, [-4, 3, 0], [4, 5, 1]),
    (5, [-4, 3, 0], [301, 401, -250]),
    (7, [3, -6, 2], [11, 7, 4]),
    (65, [63, -16, 0], [1, 4, 0]),
    (65, [63, -16, 0], [161, 634, 77]),
    (1023, [1022, -43, -14], [2, 43, 14]),
];

/// The ticks of a whole ray: the first, and the one after the last.
pub const WHOLE: [u32; 2] = [0, 1024];

/// The most steps of a long ray to either side of the foot, along an axis.
const LONG: i32 = 900;

/// How a graze is made.
#[derive(Clone, Copy, Debug, PartialEq, Eq)]
pub enum Class {
    Tangent,
    End,
    Moved,
    Chord,
}

/// A ball and a ray.
#[derive(Clone, Copy, Debug)]
pub struct Graze {
    pub class: Class,
    pub centre: Vector,
    pub r: i32,
    pub ray: Ray,
    /// A whole place of the ray, at most a step from the one that is nearest the
    /// centre.
    pub near: Vector,
    /// Whether some place of the ray is nearer the centre than r.
    pub within: bool,
}

impl Graze {
    /// The ball as a point of this weight.
    pub fn ball(&self, w: i16) -> Node {
        let [x, y, z] = self.centre.map(|c| c as i16);
        Node {
            kind: Kind::Point,
            r: self.r as u16,
            x,
            y,
            z,
            w,
        }
    }

    /// The greatest u of the ball over these ticks, by fractions.
    pub fn greatest_u(&self, ticks: [u32; 2]) -> Fraction {
        let [from, to] = ticks.map(|tick| Fraction::new(tick.into(), 1024).expect("a place"));
        u_range(&self.ray, &self.ball(1), &from, &to).1
    }
}

pub fn plus(u: Vector, v: Vector) -> Vector {
    [0, 1, 2].map(|i| u[i] + v[i])
}

pub fn times(n: i32, v: Vector) -> Vector {
    v.map(|c| n * c)
}

pub fn inner(u: Vector, v: Vector) -> i32 {
    u[0] * v[0] + u[1] * v[1] + u[2] * v[2]
}

fn largest(v: Vector) -> i32 {
    v.map(i32::abs).into_iter().fold(0, i32::max)
}

/// The ray from `before` directions before a place to `after` after it, if its
/// ends are in range.
pub fn ray_about(place: Vector, along: Vector, (before, after): (i32, i32)) -> Option<Ray> {
    let a = plus(place, times(-before, along));
    let b = plus(place, times(after, along));
    (largest(a).max(largest(b)) <= REACH).then_some(Ray { a, b })
}

/// The ray, and the one from B to A.
fn both_ways(ray: Ray) -> [Ray; 2] {
    let Ray { a, b } = ray;
    [ray, Ray { a: b, b: a }]
}

/// The rays along a direction with each of `FEET` at a place, short and long.
fn rays_about(place: Vector, along: Vector) -> impl Iterator<Item = Ray> {
    FEET.into_iter().flat_map(move |(before, after)| {
        let most = LONG / (before.max(after) * largest(along));
        let multiples = BTreeSet::from([1, most.max(1)]).into_iter();
        multiples.filter_map(move |n| ray_about(place, along, (n * before, n * after)))
    })
}

/// The lines that have a vector across of the whole length `distance`: the
/// direction, the vector of the list, and the one of that length.
fn lines_at(distance: i32) -> impl Iterator<Item = (Vector, Vector, Vector)> {
    let whole = LINES.into_iter().filter(move |line| distance % line.2 == 0);
    whole.map(move |(along, across, length)| (along, across, times(distance / length, across)))
}

fn tangents(r: i32, distance: i32) -> impl Iterator<Item = Graze> {
    lines_at(distance).flat_map(move |(along, _, offset)| {
        let near = plus(CENTRE, offset);
        rays_about(near, along).map(move |ray| Graze {
            class: Class::Tangent,
            centre: CENTRE,
            r,
            ray,
            near,
            within: distance < r,
        })
    })
}

/// Rays from the place across, straight out or obliquely, and the same from their
/// other end.
fn ends(r: i32, distance: i32) -> impl Iterator<Item = Graze> {
    let lines = lines_at(distance).filter(move |_| distance > 0);
    lines.flat_map(move |(along, across, offset)| {
        let near = plus(CENTRE, offset);
        let outward = [across, plus(across, along)].into_iter();
        let short_and_long = outward.flat_map(|v| [(v, 1), (v, LONG / largest(v))]);
        let rays = short_and_long.filter_map(move |(v, n)| ray_about(near, v, (0, n)));
        rays.flat_map(both_ways).map(move |ray| Graze {
            class: Class::End,
            centre: CENTRE,
            r,
            ray,
            near,
            within: distance < r,
        })
    })
}

/// A step out or in along an axis changes the offset's square by 1 + 2 |o| or by
/// 1 - 2 |o|, o being its coordinate there, and the squared distance by as much or
/// less than 1 less; so a step in comes within, and a step out does not.
fn moved(r: i32) -> impl Iterator<Item = Graze> {
    let oblique = lines_at(r).filter(|(_, across, _)| inner(*across, *across) > 1);
    oblique.flat_map(move |(along, _, offset)| {
        let axes = (0..3).filter(move |&i| offset[i] != 0);
        let steps = axes.flat_map(|i| [(i, 1), (i, -1)]);
        steps.flat_map(move |(i, out)| {
            let mut near = plus(CENTRE, offset);
            near[i] += out * offset[i].signum();
            rays_about(near, along).map(move |ray| Graze {
                class: Class::Moved,
                centre: CENTRE,
                r,
                ray,
                near,
                within: out < 0,
            })
        })
    })
}

/// A ray that does not go from the place in the direction has no place within.
fn chords() -> impl Iterator<Item = Graze> {
    CHORDS.into_iter().flat_map(|(r, place, along)| {
        assert_eq!([inner(place, place), inner(place, along)], [r * r, -1]);
        let near = plus(CENTRE, place);
        let beyond = move |&end: &Vector| inner(end, along) > inner(near, along);
        let both = rays_about(near, along).flat_map(both_ways);
        both.map(move |ray| Graze {
            class: Class::Chord,
            centre: CENTRE,
            r,
            ray,
            near,
            within: [ray.a, ray.b].iter().any(beyond),
        })
    })
}

/// All grazes, each radius and ray once.
pub fn grazes() -> Vec<Graze> {
    let mut listed = BTreeSet::new();
    let distances = RADII
        .into_iter()
        .flat_map(|r| [r - 1, r, r + 1].map(|d| (r, d)));
    let whole = distances.flat_map(|(r, d)| tangents(r, d).chain(ends(r, d)));
    let all = whole.chain(MOVED_RADII.into_iter().flat_map(moved));
    let new = |graze: &Graze| listed.insert((graze.r, graze.ray.a, graze.ray.b));
    all.chain(chords()).filter(new).collect()
}
