//! The viewer's first hit: six 32-bit floats in millimetres, taken apart and
//! put together by their bits. As in [`crate::cast`], the call with `_by` is
//! told where bounds come from.

use crate::cast::{hit, FirstHit, Mark};
use crate::field::{Ray, SpanBounds};
use crate::part::{read, REACH};
use crate::quick::TickField;

/// A ray as the viewer hands it over, in millimetres.
#[derive(Clone, Copy, Debug)]
pub struct ViewRay {
    /// End A.
    pub a: [f32; 3],
    /// End B.
    pub b: [f32; 3],
}

/// The viewer's answer.
#[derive(Clone, Copy, Debug, PartialEq)]
pub enum ViewerHit {
    /// Refused with the number.
    Refused(u32),
    /// The first tick not empty.
    Hit {
        /// That tick over 1024.
        entry: f32,
        /// Its mark.
        mark: Mark,
        /// Probes made.
        probes: u32,
    },
    /// All ticks empty.
    Clear {
        /// Probes made.
        probes: u32,
    },
    /// The budget ran out.
    Spent {
        /// The tick reached over 1024.
        reached: f32,
        /// Probes made.
        probes: u32,
    },
}

impl ViewerHit {
    /// The probes, or `None` if refused.
    pub fn probes(self) -> Option<u32> {
        match self {
            ViewerHit::Refused(_) => None,
            ViewerHit::Hit { probes, .. }
            | ViewerHit::Clear { probes }
            | ViewerHit::Spent { probes, .. } => Some(probes),
        }
    }

    /// The first hit that it says, with its place as a tick.
    pub fn in_ticks(self) -> FirstHit {
        let tick = |place: f32| (f64::from(place) * 1024.0) as u32;
        match self {
            ViewerHit::Refused(number) => FirstHit::Refused(number),
            ViewerHit::Hit {
                entry,
                mark,
                probes,
            } => FirstHit::Hit {
                tick: tick(entry),
                mark,
                probes,
            },
            ViewerHit::Clear { probes } => FirstHit::Clear { probes },
            ViewerHit::Spent { reached, probes } => FirstHit::Spent {
                tick: tick(reached),
                probes,
            },
        }
    }
}

/// The viewer's first hit: questions 1 to 11, then 15.
pub fn viewer_first_hit(file: &[u8], view: ViewRay, budget: u32) -> ViewerHit {
    viewer_first_hit_by::<TickField>(file, view, budget)
}

/// The viewer's ray for a ray in steps.
pub fn in_millimetres(ray: &Ray) -> ViewRay {
    let [a, b] = [ray.a, ray.b].map(|end| end.map(|c| c as f32 / 64.0));
    ViewRay { a, b }
}

/// The viewer's first hit by the bounds named.
pub fn viewer_first_hit_by<F: SpanBounds>(file: &[u8], view: ViewRay, budget: u32) -> ViewerHit {
    match try_viewer::<F>(file, view, budget) {
        Err(number) | Ok(FirstHit::Refused(number)) => ViewerHit::Refused(number),
        Ok(FirstHit::Clear { probes }) => ViewerHit::Clear { probes },
        Ok(FirstHit::Hit { tick, mark, probes }) => ViewerHit::Hit {
            entry: over_1024(tick),
            mark,
            probes,
        },
        Ok(FirstHit::Spent { probes, tick }) => ViewerHit::Spent {
            reached: over_1024(tick),
            probes,
        },
    }
}

fn try_viewer<F: SpanBounds>(file: &[u8], view: ViewRay, budget: u32) -> Result<FirstHit, u32> {
    let part = read(file)?;
    let ray = Ray {
        a: steps(view.a).ok_or(15u32)?,
        b: steps(view.b).ok_or(15u32)?,
    };
    Ok(hit::<F>(&part, &ray, budget))
}

fn steps(millimetres: [f32; 3]) -> Option<[i32; 3]> {
    let [x, y, z] = millimetres;
    Some([step(x)?, step(y)?, step(z)?])
}

/// Question 15 on one float: its 64-fold, if the float is finite and that is
/// whole and from -2047 to 2047.
pub fn step(millimetres: f32) -> Option<i32> {
    let bits = millimetres.to_bits();
    let exponent = (bits >> 23 & 0xff) as i32;
    let fraction = bits & 0x7f_ffff;
    // The size is `digits` times 2 to the power `power`, times 64.
    let (digits, power) = match exponent {
        255 => return None,
        0 => (fraction, -149 + 6),
        _ => (fraction | 0x80_0000, exponent - 150 + 6),
    };
    let size = shifted(digits, power)?;
    if size > REACH {
        return None;
    }
    Some(if bits >> 31 == 1 { -size } else { size })
}

/// `digits` times 2 to the power `power`, if that is whole and below 2^24.
fn shifted(digits: u32, power: i32) -> Option<i32> {
    if digits == 0 {
        return Some(0);
    }
    let zeros = digits.trailing_zeros() as i32;
    if power < -zeros || power > 23 {
        return None;
    }
    let wide = if power < 0 {
        u64::from(digits) >> -power
    } else {
        u64::from(digits) << power
    };
    i32::try_from(wide).ok().filter(|size| *size < 1 << 24)
}

/// The float equal to tick/1024, for a tick below 2^24.
pub fn over_1024(tick: u32) -> f32 {
    if tick == 0 {
        return f32::from_bits(0);
    }
    let top = 31 - tick.leading_zeros();
    let fraction = (u64::from(tick) << 23 >> top) as u32 & 0x7f_ffff;
    f32::from_bits((127 + top - 10) << 23 | fraction)
}
