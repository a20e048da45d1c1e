//! The exact field, the exact least and greatest u of a span, bounds in
//! units of 1/2^32, and the tolerance of a crossing tick. All is worked out with
//! fractions up to the rounding of 65536 u; from there bounds are whole numbers.
//! A part's degree says which power of u its points take, how a size comes from
//! 65536 u and the tolerance's two figures.
//!
//! A place of a ray is A + s (B - A) for a fraction s from 0 to 1; on a ray of no
//! length, whose ends coincide, all are the one place. Distances are always worked
//! out from the coordinates of a place.

use crate::big::Big;
use crate::fraction::Fraction;
use crate::part::{Degree, Kind, Node, Part};

/// A ray from end A to end B, in steps.
#[derive(Clone, Copy, Debug, PartialEq, Eq)]
pub struct Ray {
    /// End A.
    pub a: [i32; 3],
    /// End B.
    pub b: [i32; 3],
}

impl Ray {
    /// The three coordinate differences from A to B.
    pub fn differences(&self) -> [i64; 3] {
        [0, 1, 2].map(|i| i64::from(self.b[i]) - i64::from(self.a[i]))
    }

    /// S: the sizes of the coordinate differences added.
    pub fn spread(&self) -> i64 {
        self.differences().iter().map(|d| d.abs()).sum()
    }

    /// Whether A and B coincide. Every tick is then the one place.
    pub fn has_no_length(&self) -> bool {
        self.a == self.b
    }

    /// The place at the fraction s of the way from A to B.
    pub fn place(&self, s: &Fraction) -> Place {
        let differences = self.differences();
        [0, 1, 2].map(|i| {
            let start = Fraction::from(i64::from(self.a[i]));
            &start + &(s * &Fraction::from(differences[i]))
        })
    }
}

/// A place with fractional coordinates.
pub type Place = [Fraction; 3];

/// Low and high in units of 1/2^32.
#[derive(Clone, Copy, Debug, PartialEq, Eq)]
pub struct Bounds {
    /// The lower bound.
    pub low: i64,
    /// The upper bound.
    pub high: i64,
}

/// The place with whole coordinates.
pub fn whole_place(at: [i32; 3]) -> Place {
    at.map(|c| Fraction::from(i64::from(c)))
}

/// Works out a tree given in postfix order; `join` gets an operator, its earlier
/// operand and its later one. `None` if the nodes are no tree or a point has no
/// value.
fn fold<T>(
    nodes: &[Node],
    mut leaf: impl FnMut(usize, &Node) -> Option<T>,
    join: impl Fn(Kind, T, T) -> Option<T>,
) -> Option<T> {
    let mut held = Vec::new();
    for (index, node) in nodes.iter().enumerate() {
        let value = match node.kind {
            Kind::Point => leaf(index, node)?,
            operator => {
                let later = held.pop()?;
                join(operator, held.pop()?, later)?
            }
        };
        held.push(value);
    }
    let value = held.pop()?;
    held.is_empty().then_some(value)
}

/// The exact squared distance of a place from a point's centre.
pub fn distance_squared(place: &Place, point: &Node) -> Fraction {
    let centre = [point.x, point.y, point.z];
    let mut sum = Fraction::zero();
    for (coordinate, c) in place.iter().zip(centre) {
        let difference = coordinate - &Fraction::from(i64::from(c));
        sum = &sum + &(&difference * &difference);
    }
    sum
}

/// u for a squared distance: 1 - d^2/r^2 if d < r, else 0.
fn u_of(distance_squared: &Fraction, point: &Node) -> Fraction {
    let r = i64::from(point.r);
    let r_squared = Fraction::from(r * r);
    if *distance_squared >= r_squared {
        return Fraction::zero();
    }
    match distance_squared.checked_div(&r_squared) {
        Some(ratio) => &Fraction::from(1) - &ratio,
        None => Fraction::zero(),
    }
}

/// The exact u of a point at a place.
pub fn u_at(place: &Place, point: &Node) -> Fraction {
    u_of(&distance_squared(place, point), point)
}

/// What an operator makes of two exact fields in a part of this iso-value.
/// `None` of a point.
fn join_fields(kind: Kind, iso: u16, earlier: Fraction, later: Fraction) -> Option<Fraction> {
    match kind {
        Kind::Point => None,
        Kind::Sum => Some(&earlier + &later),
        Kind::Greater => Some(earlier.max(later)),
        Kind::Lesser => Some(earlier.min(later)),
        Kind::Cut => {
            let twice_iso = &Fraction::from(2) * &Fraction::from(i64::from(iso));
            Some(earlier.min(&twice_iso - &later))
        }
    }
}

/// The exact field of the part's tree at a place.
pub fn field_at(part: &Part, place: &Place) -> Option<Fraction> {
    let leaf = |_, point: &Node| {
        let u = u_at(place, point);
        let weight = Fraction::from(i64::from(point.w));
        Some((0..part.degree.power()).fold(weight, |product, _| &product * &u))
    };
    fold(&part.nodes, leaf, |kind, earlier, later| {
        join_fields(kind, part.iso, earlier, later)
    })
}

/// The exact field at n/m of the way from A to B. `None` if m is 0.
pub fn field_on_ray(part: &Part, ray: &Ray, n: i64, m: i64) -> Option<Fraction> {
    let s = Fraction::new(i128::from(n), i128::from(m))?;
    field_at(part, &ray.place(&s))
}

/// The fraction s of the place nearest a point's centre on the whole line
/// through A and B. The squared distance is a quadratic in s, so its values
/// at 0, 1/2 and 1 give its coefficients. `None` of a ray of no length: there is
/// no line.
pub fn nearest(ray: &Ray, point: &Node) -> Option<Fraction> {
    if ray.has_no_length() {
        return None;
    }
    let half = Fraction::new(1, 2)?;
    let two = Fraction::from(2);
    let value = |s: &Fraction| distance_squared(&ray.place(s), point);
    let at_0 = value(&Fraction::zero());
    let at_half = value(&half);
    let at_1 = value(&Fraction::from(1));
    let square = &two * &(&(&at_0 + &at_1) - &(&two * &at_half));
    let linear = &(&at_1 - &at_0) - &square;
    let s = (-&linear).checked_div(&(&two * &square))?;
    Some(s.reduced())
}

/// The exact least and greatest u of a point over all places of the ray from
/// the fraction `from` to the fraction `to` of the way. On a ray of no length both
/// are u at the one place.
pub fn u_range(ray: &Ray, point: &Node, from: &Fraction, to: &Fraction) -> (Fraction, Fraction) {
    let Some(s) = nearest(ray, point) else {
        let u = u_at(&whole_place(ray.a), point);
        return (u.clone(), u);
    };
    let distance = |s: &Fraction| distance_squared(&ray.place(s), point);
    let farthest = distance(from).max(distance(to));
    let closest = distance((&s).max(from).min(to));
    (u_of(&farthest, point), u_of(&closest, point))
}

/// A whole number in 1/65536 as an `i64`; u is at most 1, so it always fits.
fn units(value: &Big) -> i64 {
    value
        .to_i128()
        .and_then(|v| i64::try_from(v).ok())
        .unwrap_or(i64::MAX)
}

/// 65536 u rounded down.
fn q_low(u: &Fraction) -> i64 {
    units(&(u * &Fraction::from(65536)).floor())
}

/// 65536 u rounded up.
pub(crate) fn q_high(u: &Fraction) -> i64 {
    units(&(u * &Fraction::from(65536)).ceil())
}

/// 65536 times the least u rounded down, and times the greatest rounded up.
pub fn q_range(least: &Fraction, greatest: &Fraction) -> (i64, i64) {
    (q_low(least), q_high(greatest))
}

/// The sizes, in units of 1/2^32, that the lesser q and the greater one give. For
/// degree 4 they are the squares; for degree 6 the cubes over 65536, the lesser
/// rounded down and the greater rounded up.
pub fn sizes(degree: Degree, (low, high): (i64, i64)) -> (i64, i64) {
    let power = |q: i64| q.pow(degree.power());
    match degree {
        Degree::Four => (power(low), power(high)),
        Degree::Six => (
            power(low).div_euclid(65536),
            -(-power(high)).div_euclid(65536),
        ),
    }
}

/// The bounds of a point of weight w whose size lies between the two given.
fn weigh(w: i16, (low, high): (i64, i64)) -> Bounds {
    let w = i64::from(w);
    let (least, most) = if w >= 0 { (low, high) } else { (high, low) };
    Bounds {
        low: w * least,
        high: w * most,
    }
}

/// Twice the iso-value minus a field with these bounds.
fn removed(iso: u16, bounds: Bounds) -> Bounds {
    let twice_iso = 2 * i64::from(iso) * 4_294_967_296;
    Bounds {
        low: twice_iso - bounds.high,
        high: twice_iso - bounds.low,
    }
}

/// What an operator makes of the bounds of two fields in a part of this
/// iso-value. `None` of a point.
fn join_bounds(kind: Kind, iso: u16, earlier: Bounds, later: Bounds) -> Option<Bounds> {
    let each = |join: fn(i64, i64) -> i64, later: Bounds| Bounds {
        low: join(earlier.low, later.low),
        high: join(earlier.high, later.high),
    };
    match kind {
        Kind::Point => None,
        Kind::Sum => Some(each(|x, y| x + y, later)),
        Kind::Greater => Some(each(i64::max, later)),
        Kind::Lesser => Some(each(i64::min, later)),
        Kind::Cut => Some(each(i64::min, removed(iso, later))),
    }
}

/// The bounds of the part's tree, told the two q of each point.
pub(crate) fn tree_bounds(
    part: &Part,
    both_q: impl Fn(usize, &Node) -> Option<(i64, i64)>,
) -> Option<Bounds> {
    tree_bounds_by(part, |index, point| {
        Some(sizes(part.degree, both_q(index, point)?))
    })
}

/// The bounds of the part's tree, told the two sizes of each point.
pub fn tree_bounds_by(
    part: &Part,
    both_sizes: impl Fn(usize, &Node) -> Option<(i64, i64)>,
) -> Option<Bounds> {
    let leaf = |index: usize, point: &Node| Some(weigh(point.w, both_sizes(index, point)?));
    fold(&part.nodes, leaf, |kind, earlier, later| {
        join_bounds(kind, part.iso, earlier, later)
    })
}

/// The bounds of the part's tree over the ray from `from` to `to`.
pub fn span_bounds(part: &Part, ray: &Ray, from: &Fraction, to: &Fraction) -> Option<Bounds> {
    tree_bounds(part, |_, point| {
        let (least, greatest) = u_range(ray, point, from, to);
        Some(q_range(&least, &greatest))
    })
}

/// The bounds of the part's tree at one place.
pub fn place_bounds(part: &Part, place: &Place) -> Option<Bounds> {
    tree_bounds(part, |_, point| {
        let u = u_at(place, point);
        Some(q_range(&u, &u))
    })
}

/// The fraction of the way at which tick `tick` begins.
pub(crate) fn start_of(tick: u32) -> Option<Fraction> {
    Fraction::new(i128::from(tick), 1024)
}

/// The bounds of the part's tree over the ticks from `first` up to, not
/// including, `after`.
pub fn tick_bounds(part: &Part, ray: &Ray, first: u32, after: u32) -> Option<Bounds> {
    span_bounds(part, ray, &start_of(first)?, &start_of(after)?)
}

/// The fraction of the way at which the exact middle of tick `tick` lies.
pub fn middle_of(tick: u32) -> Option<Fraction> {
    Fraction::new(2 * i128::from(tick) + 1, 2048)
}

/// The bounds of the part's tree at the exact middle of a tick.
pub fn middle_bounds(part: &Part, ray: &Ray, tick: u32) -> Option<Bounds> {
    place_bounds(part, &ray.place(&middle_of(tick)?))
}

/// Bounds of spans of whole ticks of one ray, and at the middles of ticks.
pub trait SpanBounds {
    /// Prepares the ray through a part.
    fn new(part: &Part, ray: Ray) -> Self;

    /// The bounds over the ticks from `first` up to, not including, `after`.
    fn bounds(&self, first: u32, after: u32) -> Option<Bounds>;

    /// The bounds at the exact middle of a tick.
    fn middle(&self, tick: u32) -> Option<Bounds>;
}

/// Those bounds by fractions, each worked out afresh by `tick_bounds` and
/// `middle_bounds`.
pub struct ExactField {
    part: Part,
    ray: Ray,
}

impl SpanBounds for ExactField {
    fn new(part: &Part, ray: Ray) -> ExactField {
        let part = part.clone();
        ExactField { part, ray }
    }

    fn bounds(&self, first: u32, after: u32) -> Option<Bounds> {
        tick_bounds(&self.part, &self.ray, first, after)
    }

    fn middle(&self, tick: u32) -> Option<Bounds> {
        middle_bounds(&self.part, &self.ray, tick)
    }
}

/// The greatest distance of the field from iso in a crossing tick: over the
/// points, |w| (S/(256 r) + 1/16384) for degree 4, |w| (3S/(512 r) + 7/65536) for
/// degree 6.
pub fn tolerance(part: &Part, ray: &Ray) -> Option<Fraction> {
    tolerance_for(part, ray.spread())
}

/// The part of it that is for the rounding at one place: with S equal to 0.
pub fn rounding(part: &Part) -> Option<Fraction> {
    tolerance_for(part, 0)
}

fn tolerance_for(part: &Part, spread: i64) -> Option<Fraction> {
    let spread = i128::from(spread);
    let mut total = Fraction::zero();
    for point in part.nodes.iter().filter(|node| node.kind == Kind::Point) {
        let r = i128::from(point.r);
        let (slope, rounding) = match part.degree {
            Degree::Four => (Fraction::new(spread, 256 * r)?, Fraction::new(1, 16384)?),
            Degree::Six => (
                Fraction::new(3 * spread, 512 * r)?,
                Fraction::new(7, 65536)?,
            ),
        };
        let size = Fraction::from(i64::from(point.w).abs());
        total = &total + &(&size * &(&slope + &rounding));
    }
    Some(total)
}
