//! Columns at the limits of the rule for crossing ticks, in each version: the bounds at
//! a middle add up to twice the iso-value, to 1 less or 1 more, to the most or to the least,
//! and every tick is crossing and solid.

use crate::drawn::lent;
use crate::limits::of_steps;
use crate::request::{need, Request, COLUMN, COUNTED};
use reference::generate::SplitMix64;
use reference::part::{point_record, FileBuilder, RECORD};

/// A file, and the ends of a ray.
type Scene = (FileBuilder, [[i32; 3]; 2]);

/// A ray on which every middle is a whole step; that of tick 512 is (1, 0, 0).
const WHOLE: [[i32; 3]; 2] = [[-1024, 0, 0], [1024, 0, 0]];

/// File K, and of degree 6 its point of twice the weight, with two middles on the
/// surface: low and high are iso × 2^32 there.
fn on_surface(version: u16) -> Scene {
    let weight = if version == 1 { 4 } else { 8 };
    let file = FileBuilder::new(1).point(512, [0; 3], weight);
    (file.version(version), [[-1023, 256, 0], [1025, 256, 0]])
}

/// Two points whose bounds at (1, 0, 0) are not equal and add up to 2^33, to 1 less
/// and to 1 more; three scenes of each version.
pub fn about_the_sum() -> [Scene; 6] {
    let pair = |(version, [one, other]): (u16, [(u16, [i16; 3], i16); 2])| {
        let file = FileBuilder::new(1).point(one.0, one.1, one.2);
        let file = file.point(other.0, other.1, other.2).sum();
        (file.version(version), WHOLE)
    };
    [
        (1, [(1024, [725, 47, 8], 4), (256, [252, 38, 2], 30)]),
        (1, [(1024, [776, 96, 0], 1), (256, [240, 8, 4], 51)]),
        (1, [(1024, [457, 39, 16], 1), (256, [162, 17, 2], 1)]),
        (2, [(1024, [722, 69, 8], 4), (256, [220, 17, 12], 28)]),
        (2, [(1024, [638, 78, 25], 1), (256, [216, 52, 12], 49)]),
        (2, [(1024, [683, 80, 0], 6), (256, [255, 9, 9], 13)]),
    ]
    .map(pair)
}

/// The sum of the one point and 255 times the other, of which 64 are held at once.
fn most_points(one: [u8; RECORD], other: [u8; RECORD]) -> FileBuilder {
    let held = (1..64).fold(FileBuilder::new(4096).raw(one), |b, _| b.raw(other));
    let all = (64..256).fold(held, |b, _| b.sum().raw(other));
    (1..64).fold(all, |b, _| b.sum())
}

/// The most that the bounds at a middle add up to: 256 points of the greatest
/// weight there, whose field is 0 at both ends of the tick.
fn most(version: u16) -> Scene {
    let point = point_record(1, [1, 0, 0], 4096);
    (most_points(point, point).version(version), WHOLE)
}

/// The least in a tick that is not empty: 255 points of the least weight there, and
/// one whose field is the iso-value where the tick begins.
fn least(version: u16) -> Scene {
    let file = most_points(
        point_record(1, [0; 3], 4096),
        point_record(1, [1, 0, 0], -4096),
    );
    (file.version(version), WHOLE)
}

/// A point far from a ray that is one step long: every tick is crossing and solid.
fn solid_everywhere(version: u16) -> Scene {
    let centre = if version == 1 {
        [0, 663, 60]
    } else {
        [0, 565, 48]
    };
    let file = FileBuilder::new(1).point(1024, centre, 3);
    (file.version(version), [[0; 3], [1, 0, 0]])
}

/// A column of the scene, plain and counted.
fn columns((file, [a, b]): Scene) -> [Request; 2] {
    [COLUMN, COLUMN + COUNTED].map(|call| Request {
        call,
        file: file.build(),
        ray: of_steps(call, a, b),
        room: need(call),
        ..Request::default()
    })
}

/// Every such request.
pub fn middles(random: &mut SplitMix64) -> Vec<Request> {
    let scenes = [on_surface, most, least, solid_everywhere];
    let scenes = [1, 2]
        .into_iter()
        .flat_map(|version| scenes.map(|scene| scene(version)));
    let scenes = scenes.chain(about_the_sum());
    let answer = |request: Request| lent(random, request.answered());
    scenes.flat_map(columns).map(answer).collect()
}
