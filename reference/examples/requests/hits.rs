//! First hits at the figure of their probes, 2 h + 11 for a hit at tick h: on rays
//! that start in a crossing tick, and on rays of which every tick before the hit is
//! empty and every longer stretch undecided.

use crate::drawn::lent;
use crate::limits::of_steps;
use crate::longest::cancelling;
use crate::request::{Request, COUNTED, FIRST_HIT, VIEW};
use reference::cast::{first_hit, FirstHit};
use reference::field::Ray;
use reference::generate::SplitMix64;
use reference::part::FileBuilder;
use std::collections::BTreeSet;

/// A file, and the ends of a ray.
type Scene = (FileBuilder, [[i32; 3]; 2]);

/// The calls that answer a first hit.
pub const HITS: [u8; 4] = [FIRST_HIT, FIRST_HIT + COUNTED, VIEW, VIEW + COUNTED];

/// File K in each version: rays whose first tick holds its surface, outwards, inwards
/// and aslant, one whose first tick ends before it, and the ray of document 01.
fn of_k() -> [Scene; 10] {
    let axis = [[-1024, 0, 0], [1024, 0, 0]];
    [
        (1, [[362, 0, 0], [1386, 0, 0]]),
        (1, [[363, 0, 0], [-661, 0, 0]]),
        (1, [[209, -209, 209], [1233, -1233, 1233]]),
        (1, [[361, 0, 0], [1385, 0, 0]]),
        (1, axis),
        (2, [[311, 0, 0], [1335, 0, 0]]),
        (2, [[312, 0, 0], [-712, 0, 0]]),
        (2, [[179, -179, 179], [1203, -1203, 1203]]),
        (2, [[310, 0, 0], [1334, 0, 0]]),
        (2, axis),
    ]
    .map(|(version, ends)| {
        let k = FileBuilder::new(1).point(512, [0; 3], 4);
        (k.version(version), ends)
    })
}

/// Where the beads lie, in each version.
const BEADS: [&[i16]; 2] = [
    &[411, 412, 413, 414, 418, 426, 455, 500, 589, 650, 700, 767],
    &[301, 302, 310, 455, 600, 619],
];

/// Two points that cancel, and a bead on the ray: before it every tick is empty and
/// every longer stretch undecided.
fn before_beads() -> Vec<Scene> {
    let scenes = cancelling().into_iter().zip(BEADS);
    let scenes = scenes.flat_map(|((file, [from, to]), beads)| {
        beads.iter().map(move |&x| {
            let file = file.clone().point(1, [x, 0, 0], 4096).greater();
            (file, [[from, 0, 0], [to, 0, 0]])
        })
    });
    scenes.collect()
}

/// About the figure and about the probes that the hit takes, and always enough; at
/// tick 0 also none, and two less than the figure.
fn budgets(tick: u32, probes: u32) -> BTreeSet<u32> {
    let figure = 2 * tick + 11;
    let about = [probes - 1, probes, figure - 1, figure, figure + 1, 2047];
    let at_start = [0, 9].into_iter().filter(|_| tick == 0);
    about.into_iter().chain(at_start).collect()
}

/// Each such call on the scene, with each budget.
fn on_scene((file, [a, b]): Scene) -> Vec<Request> {
    let file = file.build();
    let FirstHit::Hit { tick, probes, .. } = first_hit(&file, &Ray { a, b }, u32::MAX) else {
        panic!("no hit from {a:?} to {b:?}");
    };
    let with_budget = |budget| {
        HITS.map(|call| Request {
            call,
            file: file.clone(),
            ray: of_steps(call, a, b),
            budget,
            ..Request::default()
        })
    };
    let budgets = budgets(tick, probes).into_iter();
    budgets.flat_map(with_budget).collect()
}

/// Every such request.
pub fn hits(random: &mut SplitMix64) -> Vec<Request> {
    let scenes = of_k().into_iter().chain(before_beads());
    let requests: Vec<Request> = scenes.flat_map(on_scene).collect();
    assert_eq!(requests.len(), 660);
    let answer = |request: Request| lent(random, request.answered());
    requests.into_iter().map(answer).collect()
}
