//! Files and rays that are accepted, listed ones and drawn ones: the archive is
//! compared on them, and the mistakes are tried on them.

use crate::requests::GROUPS;
use crate::worked::{at_y, file_k, AXIS};
use reference::field::Ray;
use reference::generate::{self, cancelling_or_bored, part_of_form};
use reference::generate::{SplitMix64, FORMS, STYLES};
use reference::part::{read, FileBuilder, Part};

/// A part, its file and a ray.
#[derive(Clone, Debug)]
pub struct Scene {
    pub part: Part,
    pub file: Vec<u8>,
    pub ray: Ray,
}

impl Scene {
    pub fn new(file: Vec<u8>, ray: Ray) -> Scene {
        let part = read(&file).expect("an accepted file");
        Scene { part, file, ray }
    }
}

/// File K on a ray of 1,024 steps along x that comes into the solid in the tick
/// given: from x = -363, where the field is below the iso-value, to x = -362, where
/// it is above. From tick 299 on the ray ends in the solid.
pub fn entering_at(tick: i32) -> Scene {
    let from = -363 - tick;
    let (a, b) = ([from, 0, 0], [from + 1024, 0, 0]);
    Scene::new(file_k(), Ray { a, b })
}

/// The same ray from its other end, so that it leaves the solid in the tick given.
/// Up to tick 724 the ray begins in the solid.
pub fn leaving_at(tick: i32) -> Scene {
    let Scene { part, file, ray } = entering_at(1023 - tick);
    let ray = Ray { a: ray.b, b: ray.a };
    Scene { part, file, ray }
}

/// A point of r 1,024, w 1 and iso 1 on a ray of one step near its centre: every
/// tick is crossing.
pub fn crossing_everywhere() -> Scene {
    let file = FileBuilder::new(1).point(1024, [2, 0, 0], 1).build();
    let (a, b) = ([0; 3], [1, 0, 0]);
    Scene::new(file, Ray { a, b })
}

/// Two points that cancel: every tick is empty, and every longer stretch undecided.
pub fn cancelling_everywhere() -> Scene {
    let file = FileBuilder::new(1).point(1024, [0; 3], 1425);
    let file = file.point(1024, [0; 3], -1425).sum().build();
    let (a, b) = ([410, 0, 0], [768, 0, 0]);
    Scene::new(file, Ray { a, b })
}

/// File K with a point that cancels it.
pub fn cancelled_k() -> Scene {
    let file = FileBuilder::new(1).point(512, [0; 3], 4);
    let file = file.point(512, [0; 3], -4).sum().build();
    Scene::new(file, AXIS)
}

/// The worked rays, and rays that come into the solid or leave it in each of the
/// last 128 ticks and in each 16th tick before.
pub fn listed() -> Vec<Scene> {
    let on_k = [AXIS, at_y(512), at_y(362)].map(|ray| Scene::new(file_k(), ray));
    let others = [
        cancelled_k(),
        crossing_everywhere(),
        cancelling_everywhere(),
    ];
    let ticks = (0..896).step_by(16).chain(896..1024);
    let crossed = ticks.flat_map(|tick| [entering_at(tick), leaving_at(tick)]);
    on_k.into_iter().chain(others).chain(crossed).collect()
}

/// Parts of each of `GROUPS` up to 50 points, and parts that nearly cancel or are
/// bored, each with a ray of each style.
pub fn drawn() -> Vec<Scene> {
    let mut random = SplitMix64::new(171);
    let mut parts: Vec<Part> = Vec::new();
    for (_, shape) in &GROUPS[..7] {
        let draw = |form| part_of_form(&mut random, shape, form);
        parts.extend(FORMS.map(draw));
    }
    parts.extend((0..20).map(|_| cancelling_or_bored(&mut random)));
    let mut scenes = Vec::new();
    for part in &parts {
        let file = FileBuilder::from(part).build();
        let rays = STYLES.map(|style| generate::ray(&mut random, part, style));
        scenes.extend(rays.map(|ray| Scene::new(file.clone(), ray)));
    }
    scenes
}

/// Those budgets for a march of `count` probes that the archive is compared with:
/// every one from 0 to a few past the count, and of many probes some.
pub fn budgets(count: u32) -> impl Iterator<Item = u32> {
    let step = if count <= 500 { 1 } else { 53 };
    let last = (count - count.min(8)..=count + 3).chain([2047, 2052, u32::MAX]);
    (0..count).step_by(step).chain(last)
}
