//! The calls: bounds at a place, full cast, first hit and column, with marks,
//! probes, the halving search and the budget. The marching cast, in
//! [`crate::march`], shares the questions, the marks and the buffer's handling.
//!
//! A search asks a [`SpanBounds`] for the bounds of spans, and a column for those at
//! the middles of crossing ticks. `full_cast_by`, `first_hit_by` and `column_by` are
//! told which: `ExactField`, the fractions, or `TickField`, the quick one, which the
//! calls without `_by` take.

use crate::field::{place_bounds, tick_bounds, whole_place, Bounds, Ray, SpanBounds};
use crate::part::{read, Part, REACH};
use crate::quick::TickField;

/// Ticks of a ray, and mark bytes of a full cast.
pub const TICKS: u32 = 1024;
/// Bytes of a column.
pub const COLUMN_BYTES: usize = 128;
/// The mark byte of a tick not looked at.
pub const NOT_LOOKED_AT: u8 = 3;

/// The mark of a tick looked at.
#[derive(Clone, Copy, Debug, PartialEq, Eq)]
pub enum Mark {
    /// The field is below iso throughout.
    Empty,
    /// Undecided.
    Crossing,
    /// The field is at least iso throughout.
    Inside,
}

impl Mark {
    /// The mark byte.
    pub fn byte(self) -> u8 {
        match self {
            Mark::Empty => 0,
            Mark::Crossing => 1,
            Mark::Inside => 2,
        }
    }
}

/// The answer of a full cast.
#[derive(Clone, Copy, Debug, PartialEq, Eq)]
pub enum FullCast {
    /// Refused with the number.
    Refused(u32),
    /// All ticks looked at.
    Complete {
        /// Probes made.
        probes: u32,
    },
    /// The budget ran out.
    Spent {
        /// Probes made.
        probes: u32,
        /// The tick reached.
        tick: u32,
    },
}

/// The answer of a first hit.
#[derive(Clone, Copy, Debug, PartialEq, Eq)]
pub enum FirstHit {
    /// Refused with the number.
    Refused(u32),
    /// The first tick not empty.
    Hit {
        /// That tick.
        tick: u32,
        /// Its mark.
        mark: Mark,
        /// Probes made.
        probes: u32,
    },
    /// All ticks empty.
    Clear {
        /// Probes made.
        probes: u32,
    },
    /// The budget ran out.
    Spent {
        /// Probes made.
        probes: u32,
        /// The tick reached.
        tick: u32,
    },
}

/// The answer of a column.
#[derive(Clone, Copy, Debug, PartialEq, Eq)]
pub enum Column {
    /// Refused with the number.
    Refused(u32),
    /// The column is written.
    Done {
        /// Probes made.
        probes: u32,
    },
}

impl FullCast {
    /// The number the C host gets.
    pub fn number(self) -> u32 {
        match self {
            FullCast::Refused(number) => number,
            FullCast::Complete { probes } => 65_536 + probes,
            FullCast::Spent { probes, .. } => 131_072 + probes,
        }
    }

    /// The probes, or `None` if refused.
    pub fn probes(self) -> Option<u32> {
        match self {
            FullCast::Refused(_) => None,
            FullCast::Complete { probes } | FullCast::Spent { probes, .. } => Some(probes),
        }
    }
}

impl FirstHit {
    /// The number the C host gets.
    pub fn number(self) -> u64 {
        let (k, tick, probes) = match self {
            FirstHit::Refused(number) => return u64::from(number),
            FirstHit::Hit { tick, mark, probes } => (u64::from(mark.byte()), tick, probes),
            FirstHit::Clear { probes } => (3, 0, probes),
            FirstHit::Spent { probes, tick } => (4, tick, probes),
        };
        k * 4_294_967_296 + u64::from(tick) * 65_536 + u64::from(probes)
    }

    /// The probes, or `None` if refused.
    pub fn probes(self) -> Option<u32> {
        match self {
            FirstHit::Refused(_) => None,
            FirstHit::Hit { probes, .. }
            | FirstHit::Clear { probes }
            | FirstHit::Spent { probes, .. } => Some(probes),
        }
    }
}

impl Column {
    /// The number the C host gets.
    pub fn number(self) -> u32 {
        match self {
            Column::Refused(number) => number,
            Column::Done { probes } => 65_536 + probes,
        }
    }

    /// The probes, or `None` if refused.
    pub fn probes(self) -> Option<u32> {
        match self {
            Column::Refused(_) => None,
            Column::Done { probes } => Some(probes),
        }
    }
}

/// Whether coordinates are in question 12's range.
fn within_reach(at: &[i32; 3]) -> bool {
    at.iter().all(|c| (-REACH..=REACH).contains(c))
}

/// Questions 1 to 12: the part, or the refusal number.
pub fn accept(file: &[u8], ray: &Ray) -> Result<Part, u32> {
    let part = read(file)?;
    if !within_reach(&ray.a) || !within_reach(&ray.b) {
        return Err(12);
    }
    Ok(part)
}

/// Question 14: the bytes of the buffer that the call writes.
fn room(buffer: &mut [u8], need: usize) -> Result<&mut [u8], u32> {
    buffer.get_mut(..need).ok_or(14)
}

/// The bounds at one whole-step place, or the refusal number.
pub fn bounds_at(file: &[u8], at: [i32; 3]) -> Result<Bounds, u32> {
    let part = read(file)?;
    if !within_reach(&at) {
        return Err(12);
    }
    place_bounds(&part, &whole_place(at)).ok_or(11)
}

/// Judges bounds: empty, inside, or else undecided. For a single tick the
/// undecided mark is crossing.
pub fn judge(bounds: Bounds, iso: u16) -> Mark {
    let threshold = i64::from(iso) * 4_294_967_296;
    if bounds.high < threshold {
        Mark::Empty
    } else if bounds.low >= threshold {
        Mark::Inside
    } else {
        Mark::Crossing
    }
}

/// The mark of one tick by its own bounds alone, by fractions.
pub fn judge_tick(part: &Part, ray: &Ray, tick: u32) -> Option<Mark> {
    let bounds = tick_bounds(part, ray, tick, tick + 1)?;
    Some(judge(bounds, part.iso))
}

/// Whether a crossing tick is solid, by the bounds at its exact middle: they add
/// up to at least 2 iso 2^32.
pub fn middle_solid(bounds: Bounds, iso: u16) -> bool {
    let sum = i128::from(bounds.low) + i128::from(bounds.high);
    sum >= 2 * i128::from(iso) * 4_294_967_296
}

/// The probe count of a finished span, as the rule defines it: 1 if decided
/// or one tick long, else 1 and the counts of the halves.
pub fn probe_count(part: &Part, ray: &Ray, first: u32, after: u32) -> Option<u32> {
    let bounds = tick_bounds(part, ray, first, after)?;
    if judge(bounds, part.iso) != Mark::Crossing || after - first == 1 {
        return Some(1);
    }
    let middle = first + (after - first) / 2;
    let left = probe_count(part, ray, first, middle)?;
    let right = probe_count(part, ray, middle, after)?;
    Some(1 + left + right)
}

/// How a search ended.
pub(crate) enum End {
    Complete,
    Stopped,
    Spent(u32),
}

/// The halving search over the whole ray, left half first. `settle` gets each
/// settled span (first tick, tick after the last, mark) in order and says
/// whether to go on. Answers the end and the probes made.
fn search(
    field: &impl SpanBounds,
    iso: u16,
    budget: Option<u32>,
    mut settle: impl FnMut(u32, u32, Mark) -> bool,
) -> Option<(End, u32)> {
    let mut waiting = vec![(0, TICKS)];
    let mut probes = 0;
    while let Some((first, after)) = waiting.pop() {
        if budget == Some(probes) {
            return Some((End::Spent(first), probes));
        }
        probes += 1;
        let mark = judge(field.bounds(first, after)?, iso);
        if mark == Mark::Crossing && after - first > 1 {
            let middle = first + (after - first) / 2;
            waiting.push((middle, after));
            waiting.push((first, middle));
        } else if !settle(first, after, mark) {
            return Some((End::Stopped, probes));
        }
    }
    Some((End::Complete, probes))
}

/// Full cast: 1,024 marks into `buffer`.
pub fn full_cast(file: &[u8], ray: &Ray, budget: u32, buffer: &mut [u8]) -> FullCast {
    full_cast_by::<TickField>(file, ray, budget, buffer)
}

/// Full cast by the bounds named.
pub fn full_cast_by<F: SpanBounds>(
    file: &[u8],
    ray: &Ray,
    budget: u32,
    buffer: &mut [u8],
) -> FullCast {
    let cast = marks_by(file, ray, buffer, |part, settle| {
        let field = F::new(part, *ray);
        search(&field, part.iso, Some(budget), |first, after, mark| {
            settle(first, after, mark);
            true
        })
    });
    cast.unwrap_or_else(FullCast::Refused)
}

/// A full cast by a search, which is handed the part and what gets each settled
/// span, and answers its end and the probes made.
pub(crate) fn marks_by(
    file: &[u8],
    ray: &Ray,
    buffer: &mut [u8],
    search: impl FnOnce(&Part, &mut dyn FnMut(u32, u32, Mark)) -> Option<(End, u32)>,
) -> Result<FullCast, u32> {
    let part = accept(file, ray)?;
    let marks = room(buffer, TICKS as usize)?;
    let mut work = [NOT_LOOKED_AT; TICKS as usize];
    let mut settle = |first: u32, after: u32, mark: Mark| {
        work[first as usize..after as usize].fill(mark.byte());
    };
    let (end, probes) = search(&part, &mut settle).ok_or(11u32)?;
    marks.copy_from_slice(&work);
    Ok(match end {
        End::Spent(tick) => FullCast::Spent { probes, tick },
        End::Complete | End::Stopped => FullCast::Complete { probes },
    })
}

/// First hit: the first tick not empty.
pub fn first_hit(file: &[u8], ray: &Ray, budget: u32) -> FirstHit {
    first_hit_by::<TickField>(file, ray, budget)
}

/// First hit by the bounds named.
pub fn first_hit_by<F: SpanBounds>(file: &[u8], ray: &Ray, budget: u32) -> FirstHit {
    match accept(file, ray) {
        Ok(part) => hit::<F>(&part, ray, budget),
        Err(number) => FirstHit::Refused(number),
    }
}

/// The first hit of an accepted ray.
pub(crate) fn hit<F: SpanBounds>(part: &Part, ray: &Ray, budget: u32) -> FirstHit {
    let mut found = None;
    let settle = |first: u32, _: u32, mark: Mark| {
        if mark != Mark::Empty {
            found = Some((first, mark));
        }
        mark == Mark::Empty
    };
    let field = F::new(part, *ray);
    let Some((end, probes)) = search(&field, part.iso, Some(budget), settle) else {
        return FirstHit::Refused(11);
    };
    match (end, found) {
        (End::Spent(tick), _) => FirstHit::Spent { probes, tick },
        (_, Some((tick, mark))) => FirstHit::Hit { tick, mark, probes },
        (_, None) => FirstHit::Clear { probes },
    }
}

/// Column: 128 bytes into `buffer`, one bit for each tick: 1 if it is solid. An
/// inside tick is, an empty one is not, and a crossing one is by its middle.
pub fn column(file: &[u8], ray: &Ray, buffer: &mut [u8]) -> Column {
    column_by::<TickField>(file, ray, buffer)
}

/// Column by the bounds named.
pub fn column_by<F: SpanBounds>(file: &[u8], ray: &Ray, buffer: &mut [u8]) -> Column {
    try_column::<F>(file, ray, buffer).unwrap_or_else(Column::Refused)
}

fn try_column<F: SpanBounds>(file: &[u8], ray: &Ray, buffer: &mut [u8]) -> Result<Column, u32> {
    let part = accept(file, ray)?;
    let bits = room(buffer, COLUMN_BYTES)?;
    let field = F::new(&part, *ray);
    let mut marks = Vec::new();
    let settle = |first: u32, after: u32, mark: Mark| {
        marks.extend((first..after).map(|_| mark));
        true
    };
    let (_, probes) = search(&field, part.iso, None, settle).ok_or(11u32)?;
    let mut work = [0u8; COLUMN_BYTES];
    for (tick, mark) in (0..).zip(marks) {
        let solid = match mark {
            Mark::Empty => false,
            Mark::Crossing => middle_solid(field.middle(tick).ok_or(11u32)?, part.iso),
            Mark::Inside => true,
        };
        work[tick as usize / 8] |= u8::from(solid) << (tick % 8);
    }
    bits.copy_from_slice(&work);
    Ok(Column::Done { probes })
}
