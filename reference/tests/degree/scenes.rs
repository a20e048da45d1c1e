//! Parts with rays and places, listed ones and drawn ones, each as a file of either
//! version.

use crate::requests::{place, GROUPS};
use crate::worked::{at_y, file_k, AXIS};
use reference::field::Ray;
use reference::generate::{self, bored, cancelling, part_of_form};
use reference::generate::{SplitMix64, FORMS, STYLES};
use reference::part::{read, Degree, FileBuilder, Kind, Part};

/// Parts of each of `GROUPS` but the last, parts that nearly cancel and bored ones.
const PARTS: [usize; 9] = [12, 12, 12, 8, 8, 2, 2, 1, 0];
const OTHERS: usize = 12;

/// A part, rays and whole-step places.
#[derive(Clone, Debug)]
pub struct Scene {
    part: Part,
    pub rays: Vec<Ray>,
    pub places: Vec<[i32; 3]>,
}

impl Scene {
    /// The part of a degree.
    pub fn part(&self, degree: Degree) -> Part {
        let part = self.part.clone();
        Part { degree, ..part }
    }

    /// The file of a degree.
    pub fn file(&self, degree: Degree) -> Vec<u8> {
        FileBuilder::from(&self.part(degree)).build()
    }

    /// A ray of each style, one of no length, places about the points, and places
    /// within the last balls, half a radius from their centres.
    fn drawn(random: &mut SplitMix64, part: Part) -> Scene {
        let mut rays = STYLES
            .map(|style| generate::ray(random, &part, style))
            .to_vec();
        rays.push(generate::no_length(random, &part));
        let mut places: Vec<[i32; 3]> = (0..8).map(|_| place(random, &part)).collect();
        let points = part.nodes.iter().filter(|node| node.kind == Kind::Point);
        places.extend(points.rev().take(8).map(|point| {
            let [x, y, z, r] = [point.x, point.y, point.z, point.r as i16].map(i32::from);
            [if x > 0 { x - r / 2 } else { x + r / 2 }, y, z]
        }));
        Scene { part, rays, places }
    }
}

/// The drawn parts.
pub fn drawn(seed: u64) -> Vec<Scene> {
    let mut random = SplitMix64::new(seed);
    let mut parts = Vec::new();
    for (count, (_, shape)) in PARTS.into_iter().zip(GROUPS) {
        parts.extend((0..count).map(|i| part_of_form(&mut random, &shape, FORMS[i % 4])));
    }
    parts.extend((0..OTHERS).map(|_| cancelling(&mut random)));
    parts.extend((0..OTHERS).map(|_| bored(&mut random)));
    // the rays and the places are drawn for degree 6
    let of_degree_6 = parts.into_iter().map(|part| Part {
        degree: Degree::Six,
        ..part
    });
    of_degree_6
        .map(|part| Scene::drawn(&mut random, part))
        .collect()
}

fn listed_scene(builder: FileBuilder, rays: &[Ray], places: &[[i32; 3]]) -> Scene {
    Scene {
        part: read(&builder.build()).expect("accepted"),
        rays: rays.to_vec(),
        places: places.to_vec(),
    }
}

fn still(at: [i32; 3]) -> Ray {
    Ray { a: at, b: at }
}

/// At (1, 0, 0) q of a ball of r 256 is 65,535 exactly, and its cube no multiple of
/// 65,536. Two such balls of weights 4,096 and -4,096 leave 4,096 units below and
/// above what they are added to: a point of weight iso at its centre, which is iso
/// exactly. The place is undecided by the rounding of sizes alone.
fn undecided_by_sizes() -> Scene {
    let at = [1, 0, 0];
    let pair = FileBuilder::new(7)
        .point(256, [0; 3], 4096)
        .point(256, [0; 3], -4096)
        .sum();
    let part = pair.point(9, [1, 0, 0], 7).sum();
    listed_scene(part, &[still(at)], &[at])
}

/// File K, and parts whose sizes decide.
pub fn listed() -> Vec<Scene> {
    let k = Scene {
        part: read(&file_k()).expect("accepted"),
        rays: vec![AXIS, at_y(512), at_y(362), at_y(300), still([311, 0, 0])],
        places: vec![[0; 3], [512, 0, 0], [362, 0, 0], [100, 200, -300]],
    };
    vec![k, undecided_by_sizes()]
}
