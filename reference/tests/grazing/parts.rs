//! Parts with a ball. Iso is 1, which is 2^32 in the units of bounds, and the
//! ball's weight is 4,096 or -4,096.
//!
//! Alone the ball is below iso where u is below 1/64, and of a large one a graze
//! moves no mark. So that a small u moves one, the ball is added to another point.
//!
//! - A positive ball: to a point just below iso. That has r 1,024 and w 1, and the
//!   ray passes its centre at a squared distance between 16 and 25, so that its
//!   greatest q is 65,535 and its high 2^32 - 131,071. A ball whose qhi is 6 or
//!   more adds 4,096 x 36 = 147,456 or more, and the span is not empty. One step
//!   within r 1,024 u is 2047/1024² and qhi 128. Of a chord qhi may be 1, and 33
//!   balls at one place add 33 x 4,096 = 135,168.
//! - A negative ball: to a point of r 1,024 and w 2 whose centre is 540 steps from
//!   the graze. There it has 2 (1 - 540²/1024²)² = 1.042 and is inside. The ball
//!   takes away 4,096 u²: more than 0.043 from u = 0.0033 on, four balls from
//!   u = 0.0017 on, and 40 from u = 0.00052 on. One step within r 65 u is 0.03, and
//!   0.00195 within r 1,024; the least u of a moved ray that comes within is
//!   0.00055, with r 1,022. Most chords change nothing so.

use crate::rays::{Class, Graze, Vector};
use reference::part::{FileBuilder, Kind, Node, Part};

/// The size of a ball's weight.
const WEIGHT: i16 = 4096;

/// The sign of a ball's weight.
#[derive(Clone, Copy, Debug, PartialEq, Eq)]
pub enum Sign {
    Plus,
    Minus,
}

pub const SIGNS: [Sign; 2] = [Sign::Plus, Sign::Minus];

impl Sign {
    fn weight(self) -> i16 {
        match self {
            Sign::Plus => WEIGHT,
            Sign::Minus => -WEIGHT,
        }
    }
}

fn centre(at: Vector) -> [i16; 3] {
    at.map(|c| c as i16)
}

/// The place so many steps from the graze along the axis along which the ray
/// advances least, towards the middle of the space.
fn beside(graze: &Graze, steps: i32) -> [i16; 3] {
    let differences = graze.ray.differences().map(i64::abs);
    let least = (0..3).min_by_key(|&i| differences[i]).unwrap_or(0);
    let mut place = graze.near;
    place[least] += if place[least] > 0 { -steps } else { steps };
    centre(place)
}

/// The ball alone.
pub fn alone(graze: &Graze, sign: Sign) -> FileBuilder {
    FileBuilder::new(1).node(&graze.ball(sign.weight()))
}

/// How many balls at one place are added, so that a small u moves a mark.
fn copies(graze: &Graze, sign: Sign) -> usize {
    match (graze.class, sign) {
        (Class::Chord, Sign::Plus) => 33,
        (Class::Moved, Sign::Minus) if graze.r > 65 => 40,
        (_, Sign::Minus) if graze.r > 65 => 4,
        _ => 1,
    }
}

/// The sum of another point and the ball, after what is there.
fn added_after(builder: FileBuilder, graze: &Graze, sign: Sign) -> FileBuilder {
    let other = match sign {
        Sign::Plus => builder.point(1024, beside(graze, 5), 1),
        Sign::Minus => builder.point(1024, beside(graze, 540), 2),
    };
    let ball = graze.ball(sign.weight());
    (0..copies(graze, sign)).fold(other, |b, _| b.node(&ball).sum())
}

/// That sum alone.
pub fn added(graze: &Graze, sign: Sign) -> FileBuilder {
    added_after(FileBuilder::new(1), graze, sign)
}

/// Whether the ball's operand is the earlier or the later one.
#[derive(Clone, Copy, Debug, PartialEq, Eq)]
pub enum Order {
    Earlier,
    Later,
}

pub const ORDERS: [Order; 2] = [Order::Earlier, Order::Later];

/// What `ball` adds and another point, joined by an operator. The other is far
/// from every ray; for a lesser, and where a cut removes what `ball` adds, it has 4
/// at the graze.
fn join(
    graze: &Graze,
    kind: Kind,
    order: Order,
    ball: impl Fn(FileBuilder) -> FileBuilder,
) -> FileBuilder {
    let other = |builder: FileBuilder| match (kind, order) {
        (Kind::Lesser, _) | (Kind::Cut, Order::Later) => builder.point(1024, centre(graze.near), 4),
        _ => builder.point(1, [2047, -2047, 2047], WEIGHT),
    };
    let new = FileBuilder::new(1);
    let both = match order {
        Order::Earlier => other(ball(new)),
        Order::Later => ball(other(new)),
    };
    both.operator(kind)
}

/// The ball and another point, joined by an operator.
pub fn paired(graze: &Graze, sign: Sign, kind: Kind, order: Order) -> FileBuilder {
    join(graze, kind, order, |b| b.node(&graze.ball(sign.weight())))
}

/// The sum of another point and the ball, joined with a third by an operator.
pub fn joined(graze: &Graze, sign: Sign, kind: Kind, order: Order) -> FileBuilder {
    join(graze, kind, order, |b| added_after(b, graze, sign))
}

/// The part with weight 0, which makes both bounds 0, for the points that are
/// `far`.
pub fn without(part: &Part, far: impl Fn(&Node) -> bool) -> Part {
    let mut part = part.clone();
    for node in &mut part.nodes {
        if node.kind == Kind::Point && far(node) {
            node.w = 0;
        }
    }
    part
}
