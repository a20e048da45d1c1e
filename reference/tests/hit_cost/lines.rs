//! Generated parts with a line through each, cut into stretches of whole steps. A ray
//! whose ticks are these stretches is moved along the line, so that the first stretch
//! that is not empty is each of its ticks in turn.

use crate::promises::Scene;
use crate::requests::{operators_and_degree, GROUPS};
use reference::cast::{first_hit, judge, FirstHit, Mark, TICKS};
use reference::field::{tick_bounds, Ray};
use reference::generate::{bored, cancelling, part_of_form, SplitMix64, FORMS};
use reference::part::{FileBuilder, Kind, Part, REACH};
use std::iter::repeat_with;

/// Steps of a stretch along the three axes.
pub const STRETCHES: [[i32; 3]; 11] = [
    [1, 0, 0],
    [0, -1, 0],
    [0, 0, 1],
    [1, 1, 0],
    [-1, 0, 0],
    [0, 1, -1],
    [1, -1, 1],
    [0, 2, 0],
    [-1, 0, 2],
    [-2, 1, -1],
    [3, 0, 0],
];

/// A line through a part.
pub struct Line {
    part: Part,
    file: Vec<u8>,
    stretch: [i32; 3],
    /// Where the first stretch that is not empty begins, and its mark.
    entry: [i32; 3],
    mark: Mark,
    /// How many stretches before it are known to be empty, 1,023 at most.
    open: i32,
}

fn within_reach(place: [i32; 3]) -> bool {
    place.iter().all(|c| (-REACH..=REACH).contains(c))
}

/// A ray of 1,024 stretches, of which so many come before the place.
fn ray_about(place: [i32; 3], stretch: [i32; 3], before: i32) -> Option<Ray> {
    let at = |n: i32| [0, 1, 2].map(|i| place[i] + n * stretch[i]);
    let (a, b) = (at(-before), at(TICKS as i32 - before));
    (within_reach(a) && within_reach(b)).then_some(Ray { a, b })
}

/// The mark of a stretch judged alone, as a ray of its own, by the fractions.
fn mark_of(part: &Part, a: [i32; 3], stretch: [i32; 3]) -> Mark {
    let b = [0, 1, 2].map(|i| a[i] + stretch[i]);
    let bounds = tick_bounds(part, &Ray { a, b }, 0, TICKS);
    judge(bounds.expect("a tree"), part.iso)
}

impl Line {
    /// The line through a place of a part, if a ray that has the place in its middle is
    /// hit.
    fn new(part: Part, place: [i32; 3], stretch: [i32; 3]) -> Option<Line> {
        let file = FileBuilder::from(&part).build();
        let ray = ray_about(place, stretch, 512)?;
        let FirstHit::Hit { tick, .. } = first_hit(&file, &ray, u32::MAX) else {
            return None;
        };
        let at = |n: i32| [0, 1, 2].map(|i| ray.a[i] + n * stretch[i]);
        let entry = at(tick as i32);
        let empty = |n: &i32| {
            let from = at(tick as i32 - n);
            within_reach(from) && mark_of(&part, from, stretch) == Mark::Empty
        };
        let open = (1..TICKS as i32).take_while(empty).count() as i32;
        Some(Line {
            mark: mark_of(&part, entry, stretch),
            part,
            file,
            stretch,
            entry,
            open,
        })
    }

    /// Its ray that is hit at tick h, if there is one.
    pub fn hit_at(&self, h: u32) -> Option<Scene> {
        let before = h as i32;
        let ray = ray_about(self.entry, self.stretch, before)?;
        (before <= self.open).then(|| Scene {
            part: self.part.clone(),
            file: self.file.clone(),
            ray,
            first: Some((h, self.mark)),
        })
    }

    /// Its stretch, and the operators of its part.
    pub fn classes(&self) -> Vec<String> {
        let mut classes = operators_and_degree(&self.part);
        classes.push(format!("{:?}", self.stretch));
        classes
    }
}

/// A part of the kind numbered: of a shape with at most six points, bored, or one
/// that nearly cancels.
pub fn part(random: &mut SplitMix64, kind: usize) -> Part {
    let form = random.pick(&FORMS);
    match kind % 7 {
        5 => bored(random),
        6 => cancelling(random),
        shape => part_of_form(random, &GROUPS[shape].1, form),
    }
}

/// A place near the centre of one of a part's points.
fn place(random: &mut SplitMix64, part: &Part) -> [i32; 3] {
    let points = part.nodes.iter().filter(|node| node.kind == Kind::Point);
    let points: Vec<_> = points.copied().collect();
    let point = random.pick(&points);
    let most = i64::from(point.r) / 3;
    [point.x, point.y, point.z].map(|c| i32::from(c) + random.between(-most, most) as i32)
}

/// So many lines, of which the parts and the stretches are each kind in turn.
pub fn lines(count: usize) -> Vec<Line> {
    let mut random = SplitMix64::new(201);
    let mut drawn = |i: usize| {
        let lines = repeat_with(|| {
            let part = part(&mut random, i);
            let place = place(&mut random, &part);
            Line::new(part, place, STRETCHES[i % STRETCHES.len()])
        });
        let mut open = lines.flatten().filter(|line| line.open > 400);
        open.next().expect("a line")
    };
    (0..count).map(&mut drawn).collect()
}
