//! Files, rays and parts of generated requests.

use reference::field::Ray;
use reference::generate::{self, fault, mutate, random_bytes, random_records};
use reference::generate::{Shape, SplitMix64, OVERLAPPING, STYLES};
use reference::part::{FileBuilder, Kind, Node, Part, REACH};

/// The file of a part; a damaged one, or other bytes, once in five.
#[allow(dead_code)]
pub fn file(random: &mut SplitMix64, part: &Part) -> Vec<u8> {
    let leading = vec![1; random.pick(&[0, 0, 0, 1, 12, 100])];
    let builder = FileBuilder::from(part).leading(&leading);
    let mut file = builder.build();
    match random.between(0, 24) {
        0..=1 => file = fault(builder, random.between(1, 11) as u32).build(),
        2 => mutate(random, &mut file),
        3 => file.truncate(random.between(0, file.len() as i64) as usize),
        4 => file = random.pick(&[random_bytes, random_records])(random),
        _ => {}
    }
    file
}

/// A ray, mostly one that comes near a point; one that is refused once in fifteen,
/// and one of no length once in thirty.
#[allow(dead_code)]
pub fn ray(random: &mut SplitMix64, part: &Part) -> Ray {
    let far = random.pick(&[2048, -2048, 65_536, i32::MAX, i32::MIN]);
    let style = match random.one_in(3) {
        true => random.pick(&STYLES),
        false => random.pick(&STYLES[..4]),
    };
    let mut ray = generate::ray(random, part, style);
    match random.between(0, 29) {
        0 => ray.b = ray.a,
        1 => ray.a[random.between(0, 2) as usize] = far,
        2 => ray.b[random.between(0, 2) as usize] = far,
        _ => {}
    }
    ray
}

/// A place, mostly one within a point's radius of it; one that is refused once
/// in ten.
#[allow(dead_code)]
pub fn place(random: &mut SplitMix64, part: &Part) -> [i32; 3] {
    let far = random.pick(&[2048, -2048, 65_536, i32::MAX, i32::MIN]);
    let of_points = part.nodes.iter().copied();
    let points: Vec<Node> = of_points.filter(|node| node.kind == Kind::Point).collect();
    let Node { r, x, y, z, .. } = random.pick(&points);
    let most = i64::from(r) * 5 / 8;
    let mut at = [x, y, z].map(|c| {
        let near = i32::from(c) + random.between(-most, most) as i32;
        near.clamp(-REACH, REACH)
    });
    if random.one_in(10) {
        at[random.between(0, 2) as usize] = far;
    }
    at
}

/// The operators of a part, or that it has none, and its degree.
#[allow(dead_code)]
pub fn operators_and_degree(part: &Part) -> Vec<String> {
    let mut kinds: Vec<String> = part
        .nodes
        .iter()
        .filter(|node| node.kind != Kind::Point || part.nodes.len() == 1)
        .map(|node| format!("{:?}", node.kind))
        .collect();
    kinds.sort();
    kinds.dedup();
    kinds.push(format!("{:?}", part.degree));
    kinds
}

/// The budget of a kind, 0 to 6, for a call that needs `count` probes.
#[allow(dead_code)]
pub fn budget(kind: usize, count: u32) -> u32 {
    [0, 1, count - 1, count, count + 1, 2047, u32::MAX][kind]
}

/// Room for `need` bytes, too little once in eight: its kind, 0 to 3, and it.
#[allow(dead_code)]
pub fn room(random: &mut SplitMix64, need: usize) -> (usize, usize) {
    let kind = random.pick(&[0, 1, 2, 2, 2, 2, 2, 2, 2, 3, 3, 3, 3, 3, 3, 3]);
    let more = need + random.between(1, 300) as usize;
    (kind, [0, need - 1, need, more][kind])
}

/// How many parts, and their shape.
pub const GROUPS: [(usize, Shape); 9] = [
    // single points
    (
        4_000,
        Shape {
            points: (1, 1),
            reach: 900,
            radius: (1, 1024),
            weight: (1, 400),
            iso: (1, 40),
        },
    ),
    // a few points of either sign
    (
        3_000,
        Shape {
            points: (2, 6),
            reach: 400,
            radius: (100, 1024),
            weight: (-20, 60),
            iso: (1, 8),
        },
    ),
    (2_000, OVERLAPPING),
    // a few small points near each other
    (
        2_000,
        Shape {
            points: (1, 5),
            reach: 9,
            radius: (1, 9),
            weight: (-4096, 4096),
            iso: (1, 2000),
        },
    ),
    // points at one place, whose weights may cancel
    (
        1_000,
        Shape {
            points: (2, 3),
            reach: 0,
            radius: (500, 512),
            weight: (-4, 4),
            iso: (1, 2),
        },
    ),
    // none of positive weight
    (
        500,
        Shape {
            points: (1, 8),
            reach: 300,
            radius: (300, 1024),
            weight: (-4096, -1),
            iso: (1, 9),
        },
    ),
    // everywhere
    (
        2_000,
        Shape {
            points: (10, 50),
            reach: 2047,
            radius: (1, 1024),
            weight: (-4096, 4096),
            iso: (1, 4096),
        },
    ),
    // 64 values held by every right-deep one
    (
        800,
        Shape {
            points: (64, 120),
            reach: 900,
            radius: (50, 900),
            weight: (-30, 90),
            iso: (1, 60),
        },
    ),
    // the most records
    (
        400,
        Shape {
            points: (256, 256),
            reach: 1500,
            radius: (50, 700),
            weight: (-40, 60),
            iso: (1, 80),
        },
    ),
];
