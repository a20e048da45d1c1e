//! Walls of known thickness, for tests and the benchmark: parts of degree 4 whose solid
//! along an axis is one stretch, its faces found by fractions, and how many ticks of a ray
//! along the axis they fill.

use crate::cast::{COLUMN_BYTES, TICKS};
use crate::field::{field_at, Ray};
use crate::fraction::Fraction;
use crate::part::{Degree, FileBuilder, Kind, Node, Part};

/// Halvings of a stretch of some hundred steps in which a face lies.
const HALVINGS: u32 = 44;
/// Lengths of rays in steps: ticks of 1 step, of 2 and of almost 4.
pub const LENGTHS: [i32; 3] = [1024, 2048, 4094];
/// By how many steps a wall is moved along its axis.
const MOVED: [i16; 8] = [0, 1, 2, 3, 50, -77, 120, -201];
/// Sizes of walls.
const SIZES: [i16; 12] = [1, 2, 3, 4, 5, 8, 13, 21, 34, 55, 70, 80];

/// A node on a line: its kind and, of a point, the radius, the place and the weight.
type OnLine = (Kind, u16, i16, i16);

/// A wall on a line.
#[derive(Clone, Debug)]
pub struct Wall {
    /// What it is made of.
    pub name: &'static str,
    iso: u16,
    nodes: Vec<OnLine>,
    /// A place of the wall, and one before it and one after it.
    places: [i64; 3],
    /// Its thickness in steps: a fraction that is too small and one that is too
    /// large, by less than 2^-30.
    pub thickness: [Fraction; 2],
}

/// A face of a wall, by two places next to it: one outside and one of the wall.
struct Face {
    outer: Fraction,
    inner: Fraction,
}

fn point(r: u16, at: i16, w: i16) -> OnLine {
    (Kind::Point, r, at, w)
}

fn operator(kind: Kind) -> OnLine {
    (kind, 0, 0, 0)
}

impl Wall {
    /// The places given are one of the wall, one before it and one after it.
    fn new(name: &'static str, iso: u16, nodes: &[OnLine], places: [i16; 3]) -> Option<Wall> {
        let mut wall = Wall {
            name,
            iso,
            nodes: nodes.to_vec(),
            places: places.map(i64::from),
            thickness: [Fraction::zero(), Fraction::zero()],
        };
        let [_, before, after] = wall.places;
        let (first, last) = (wall.face(before)?, wall.face(after)?);
        wall.thickness = [&last.inner - &first.inner, &last.outer - &first.outer];
        Some(wall)
    }

    /// The part, moved along an axis.
    fn part(&self, axis: usize, moved: i16) -> Part {
        let node = |&(kind, r, at, w): &OnLine| {
            let mut centre = [0; 3];
            centre[axis] = if kind == Kind::Point { at + moved } else { 0 };
            let [x, y, z] = centre;
            Node {
                kind,
                r,
                x,
                y,
                z,
                w,
            }
        };
        Part {
            iso: self.iso,
            degree: Degree::Four,
            nodes: self.nodes.iter().map(node).collect(),
        }
    }

    /// The face towards a place. `None` if that is not outside the wall.
    fn face(&self, outside: i64) -> Option<Face> {
        let part = self.part(0, 0);
        let iso = Fraction::from(i64::from(self.iso));
        let solid = |x: &Fraction| {
            let place = [x.clone(), Fraction::zero(), Fraction::zero()];
            field_at(&part, &place).is_some_and(|field| field >= iso)
        };
        let half = Fraction::new(1, 2)?;
        let (mut outer, mut inner) = (Fraction::from(outside), Fraction::from(self.places[0]));
        if solid(&outer) || !solid(&inner) {
            return None;
        }
        for _ in 0..HALVINGS {
            let middle = (&half * &(&outer + &inner)).reduced();
            match solid(&middle) {
                true => inner = middle,
                false => outer = middle,
            }
        }
        Some(Face { outer, inner })
    }
}

/// Balls of several radii and weights.
fn balls() -> impl Iterator<Item = Option<Wall>> {
    let radii = [2, 3, 4, 5, 7, 9, 12, 16, 21, 28, 49, 65, 86, 114, 152, 201];
    let weights = [(4, 1), (9, 2), (50, 7), (4096, 1000)];
    let sizes = radii.into_iter().zip(weights.into_iter().cycle());
    sizes.map(|(r, (w, iso))| {
        let end = r as i16;
        Wall::new("ball", iso, &[point(r, 0, w)], [0, -end, end])
    })
}

/// A wall of each operator, about `k` to some hundred steps thick. A ball of radius
/// r is solid up to 0.707 r from its centre with w 4, and up to 0.816 r with w 9.
fn joined(k: i16) -> [Option<Wall>; 5] {
    let wide = |r: u16| 3 * r as i16;
    let size = 20 + k as u16;
    let blend = [point(size, -k / 2, 4), point(size + 7, k / 2, 4)];
    let [sum, greater] =
        [Kind::Sum, Kind::Greater].map(|kind| [blend[0], blend[1], operator(kind)]);
    // from -k - 0.9 to k + 0.4
    let lens = [
        point(200, k - 141, 4),
        point(333, 271 - k, 9),
        operator(Kind::Lesser),
    ];
    // from -212.1 to k - 211.6
    let beside = [
        point(300, 0, 4),
        point(400, 115 + k, 9),
        operator(Kind::Cut),
    ];
    // from -k - 0.3 to k - 0.5
    let between = [
        point(120, 0, 4096),
        point(100, -71 - k, 4),
        operator(Kind::Cut),
        point(150, 122 + k, 9),
        operator(Kind::Cut),
    ];
    [
        Wall::new("sum", 1, &sum, [0, -wide(size), wide(size)]),
        Wall::new("greater", 1, &greater, [0, -wide(size), wide(size)]),
        Wall::new("lesser", 1, &lens, [0, -k - 3, k + 3]),
        Wall::new("cut", 1, &beside, [-211, -214, k - 209]),
        Wall::new("two cuts", 1, &between, [0, -k - 3, k + 3]),
    ]
}

/// File K on the x axis.
pub fn file_k() -> Option<Wall> {
    Wall::new("file K", 1, &[point(512, 0, 4)], [0, -512, 512])
}

/// All walls. A wall whose places are not as they should be is left out.
pub fn walls() -> Vec<Wall> {
    let joined = SIZES.into_iter().flat_map(joined);
    balls().chain(joined).flatten().collect()
}

/// A wall that stands across a ray.
#[derive(Clone, Debug)]
pub struct Stand {
    /// The part.
    pub file: Vec<u8>,
    /// The ray.
    pub ray: Ray,
    /// The wall's thickness in ticks, as of the wall.
    pub exact: [Fraction; 2],
}

impl Wall {
    /// The wall moved along an axis, across a ray of a length along it.
    pub fn across(&self, axis: usize, length: i32, moved: i16) -> Option<Stand> {
        let ticks = Fraction::new(i128::from(TICKS), i128::from(length))?;
        let [mut a, mut b] = [[0; 3]; 2];
        (a[axis], b[axis]) = (-length / 2, length / 2);
        Some(Stand {
            file: FileBuilder::from(&self.part(axis, moved)).build(),
            ray: Ray { a, b },
            exact: [0, 1].map(|i| (&ticks * &self.thickness[i]).reduced()),
        })
    }

    /// The wall across rays of a length along each axis, moved by several steps.
    pub fn stands(&self, length: i32) -> Vec<Stand> {
        let axes = 0..3;
        let all = axes.flat_map(|axis| MOVED.map(|moved| self.across(axis, length, moved)));
        all.flatten().collect()
    }
}

/// How thick a wall comes out, in ticks.
#[derive(Clone, Debug)]
pub struct Printed {
    /// The exact thickness, as of the wall.
    pub exact: [Fraction; 2],
    /// Ticks that are marked inside or crossing: solid if every crossing tick is.
    pub marked: u32,
    /// Ticks that are solid by their bits.
    pub solid: u32,
}

/// How many ticks are solid. `None` if they are not side by side.
fn in_a_row(ticks: &[bool]) -> Option<u32> {
    let runs = ticks.chunk_by(|x, y| x == y).filter(|run| run[0]);
    let mut lengths = runs.map(|run| run.len() as u32);
    let length = lengths.next().unwrap_or(0);
    lengths.next().is_none().then_some(length)
}

impl Stand {
    /// How thick it comes out, told the marks and the bits of the ray. `None` if it
    /// comes out in pieces.
    pub fn printed(
        &self,
        marks: &[u8; TICKS as usize],
        bits: &[u8; COLUMN_BYTES],
    ) -> Option<Printed> {
        let marked = marks.map(|mark| mark == 1 || mark == 2);
        let solid: Vec<bool> = (0..marks.len())
            .map(|t| bits[t / 8] >> (t % 8) & 1 == 1)
            .collect();
        Some(Printed {
            exact: self.exact.clone(),
            marked: in_a_row(&marked)?,
            solid: in_a_row(&solid)?,
        })
    }
}

impl Printed {
    /// Whether the marked ticks are at least as thick as the wall, and at most two
    /// more, and the solid ones within one.
    pub fn is_right(&self) -> bool {
        let ticks = |n: u32| Fraction::from(i64::from(n));
        let [low, high] = &self.exact;
        let up_to = |n: u32, more: u32| *high <= ticks(n + more);
        up_to(self.marked, 0)
            && ticks(self.marked) <= low + &ticks(2)
            && up_to(self.solid, 1)
            && ticks(self.solid) <= low + &ticks(1)
    }

    /// By how many ticks the marked ones and the solid ones are more than the exact
    /// thickness.
    pub fn more(&self) -> [f64; 2] {
        [self.marked, self.solid].map(|ticks| f64::from(ticks) - decimal(&self.exact[0]))
    }
}

/// A fraction as a float, to six digits after the point.
pub fn decimal(fraction: &Fraction) -> f64 {
    let millionths = (fraction * &Fraction::from(1_000_000)).floor().to_i128();
    millionths.map_or(f64::NAN, |n| n as f64 / 1e6)
}
