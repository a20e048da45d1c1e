//! The marching full cast: forward steps from tick 0, by candidates that grow
//! where they are decided and shrink where they are not.
//!
//! Its questions, buffer, marks and answer are the full cast's, in
//! [`crate::cast`].

use crate::cast::{judge, marks_by, End, FullCast, Mark, TICKS};
use crate::field::{tick_bounds, Ray, SpanBounds};
use crate::part::Part;
use crate::quick::TickField;

/// Ticks of the first candidate.
pub const FIRST_CANDIDATE: u32 = 64;

/// Marching cast: 1,024 marks into `buffer`.
pub fn marching_cast(file: &[u8], ray: &Ray, budget: u32, buffer: &mut [u8]) -> FullCast {
    marching_cast_by::<TickField>(file, ray, budget, buffer)
}

/// Marching cast by the bounds named.
pub fn marching_cast_by<F: SpanBounds>(
    file: &[u8],
    ray: &Ray,
    budget: u32,
    buffer: &mut [u8],
) -> FullCast {
    let cast = marks_by(file, ray, buffer, |part, settle| {
        march::<F>(part, ray, budget, settle)
    });
    cast.unwrap_or_else(FullCast::Refused)
}

/// The march over the whole ray. `settle` gets each settled span (first tick,
/// tick after the last, mark) in order. Answers the end and the probes made.
fn march<F: SpanBounds>(
    part: &Part,
    ray: &Ray,
    budget: u32,
    settle: &mut dyn FnMut(u32, u32, Mark),
) -> Option<(End, u32)> {
    let field = F::new(part, *ray);
    let (mut tick, mut candidate, mut probes) = (0, FIRST_CANDIDATE, 0);
    while tick < TICKS {
        if probes == budget {
            return Some((End::Spent(tick), probes));
        }
        probes += 1;
        let after = TICKS.min(tick + candidate);
        let length = after - tick;
        let mark = judge(field.bounds(tick, after)?, part.iso);
        if mark == Mark::Crossing && length > 1 {
            candidate = length / 2;
        } else {
            // of one crossing tick, too, the next candidate is twice its length
            settle(tick, after, mark);
            (tick, candidate) = (after, 2 * length);
        }
    }
    Some((End::Complete, probes))
}

/// The probe count of a march from a tick on with a candidate, as the rule
/// defines it: none at the end of the ray, else 1 and the count from where the
/// candidate leads.
pub fn march_count(part: &Part, ray: &Ray, tick: u32, candidate: u32) -> Option<u32> {
    let left = TICKS - tick;
    if left == 0 {
        return Some(0);
    }
    let cut = if candidate < left { candidate } else { left };
    let bounds = tick_bounds(part, ray, tick, tick + cut)?;
    let from_next = match (judge(bounds, part.iso), cut) {
        (Mark::Empty | Mark::Inside, _) => march_count(part, ray, tick + cut, cut * 2),
        (Mark::Crossing, 1) => march_count(part, ray, tick + 1, 2),
        (Mark::Crossing, _) => march_count(part, ray, tick, cut / 2),
    };
    Some(1 + from_next?)
}
