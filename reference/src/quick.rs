//! The quick path, for volume: bounds of spans of whole ticks and at the middles
//! of ticks, with q at their ends and there worked out in whole numbers.
//!
//! Coordinates are taken in 1/1024 steps, for middles in 1/2048 steps, so squared
//! distances are scaled by 1024^2 and 2048^2, as the delivered crates scale them;
//! in that the path is not independent of them. The nearest places, and q there,
//! come from the fractions. On a ray of no length every span is the place where it
//! begins.

use crate::field::{
    middle_of, nearest, q_high, q_range, start_of, tree_bounds, u_at, u_range, Bounds, Ray,
    SpanBounds,
};
use crate::fraction::Fraction;
use crate::part::{Kind, Node, Part};
use std::cmp::Ordering;

/// Bounds of spans of whole ticks of one ray and at the middles of ticks, with each
/// point's nearest place kept. Span ends and middles are worked out in checked `i64`;
/// where that overflows the fractions serve.
pub struct TickField {
    part: Part,
    ray: Ray,
    nearest: Vec<Option<Nearest>>,
}

/// The nearest place of the line to a centre: s, and 65536 u rounded up there.
struct Nearest {
    s: Fraction,
    q_high: i64,
}

impl SpanBounds for TickField {
    fn new(part: &Part, ray: Ray) -> TickField {
        let keep = |node: &Node| {
            if node.kind != Kind::Point {
                return None;
            }
            let s = nearest(&ray, node)?;
            let q_high = q_high(&u_at(&ray.place(&s), node));
            Some(Nearest { s, q_high })
        };
        TickField {
            part: part.clone(),
            ray,
            nearest: part.nodes.iter().map(keep).collect(),
        }
    }

    fn bounds(&self, first: u32, after: u32) -> Option<Bounds> {
        tree_bounds(&self.part, |index, point| {
            let quick = self.quick_range(index, point, first, after);
            quick.or_else(|| self.slow_range(point, first, after))
        })
    }

    fn middle(&self, tick: u32) -> Option<Bounds> {
        tree_bounds(&self.part, |_, point| {
            let quick = self.quick_q(point, 2 * tick + 1, 2048);
            quick.or_else(|| self.slow_q(point, tick))
        })
    }
}

impl TickField {
    /// q at the ends in `i64`, and at the nearest place if the span holds it. On a
    /// ray of no length q at the one place.
    fn quick_range(
        &self,
        index: usize,
        point: &Node,
        first: u32,
        after: u32,
    ) -> Option<(i64, i64)> {
        let (first_low, first_high) = self.quick_q(point, first, 1024)?;
        if self.ray.has_no_length() {
            return Some((first_low, first_high));
        }
        let kept = self.nearest.get(index)?.as_ref()?;
        let (after_low, after_high) = self.quick_q(point, after, 1024)?;
        let (from, to) = (start_of(first)?, start_of(after)?);
        let high = match (kept.s.cmp(&from), kept.s.cmp(&to)) {
            (Ordering::Less, _) => first_high,
            (_, Ordering::Greater) => after_high,
            _ => kept.q_high,
        };
        Some((first_low.min(after_low), high))
    }

    /// 65536 u rounded down and up at the place n/m of the way. Coordinates are
    /// taken in 1/m steps.
    fn quick_q(&self, point: &Node, n: u32, m: i64) -> Option<(i64, i64)> {
        let centre = [point.x, point.y, point.z];
        let differences = self.ray.differences();
        let mut distance: i64 = 0;
        for i in 0..3 {
            let start = i64::from(self.ray.a[i]).checked_sub(i64::from(centre[i]))?;
            let way = differences[i].checked_mul(i64::from(n))?;
            let offset = start.checked_mul(m)?.checked_add(way)?;
            distance = distance.checked_add(offset.checked_mul(offset)?)?;
        }
        let radius = i64::from(point.r).checked_mul(m)?;
        let whole = radius.checked_mul(radius)?;
        if distance >= whole {
            return Some((0, 0));
        }
        let scaled = whole.checked_sub(distance)?.checked_mul(65536)?;
        let up = i64::from(scaled % whole != 0);
        Some((scaled / whole, (scaled / whole).checked_add(up)?))
    }

    fn slow_range(&self, point: &Node, first: u32, after: u32) -> Option<(i64, i64)> {
        let (from, to) = (start_of(first)?, start_of(after)?);
        let (least, greatest) = u_range(&self.ray, point, &from, &to);
        Some(q_range(&least, &greatest))
    }

    fn slow_q(&self, point: &Node, tick: u32) -> Option<(i64, i64)> {
        let u = u_at(&self.ray.place(&middle_of(tick)?), point);
        Some(q_range(&u, &u))
    }
}
