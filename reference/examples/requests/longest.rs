//! Casts that need the most probes, in each version, with budgets that are just enough and too
//! small by one; a march also with the most probes of the other casts.

use crate::drawn::lent;
use crate::limits::of_steps;
use crate::request::{casting, need, Request, CHECK, COLUMN, MARCH};
use reference::generate::SplitMix64;
use reference::part::FileBuilder;

/// A file, and the x of the ends of a ray along the x axis.
type Scene = (Vec<u8>, [i32; 2]);

/// Two points that cancel, in each version: every tick of the ray is empty, and every
/// longer stretch undecided.
pub fn cancelling() -> [(FileBuilder, [i32; 2]); 2] {
    [(1, 1425, [410, 768]), (2, 1500, [300, 620])].map(|(version, w, ends)| {
        let file = FileBuilder::new(1).point(1024, [0; 3], w);
        let file = file.point(1024, [0; 3], -w).sum();
        (file.version(version), ends)
    })
}

/// A point near the ray, which is one step long: every tick is crossing.
fn crossing_everywhere(version: u16) -> Scene {
    let file = FileBuilder::new(1).point(1024, [2, 0, 0], 1);
    (file.version(version).build(), [0, 1])
}

/// The budgets of a call, the last one its most probes; a column has none.
fn budgets(call: u8) -> &'static [u32] {
    match casting(call) {
        Some(MARCH) => &[2047, 2051, 2052],
        Some(COLUMN) => &[2047],
        _ => &[2046, 2047],
    }
}

/// Each casting call on the scene, if it needs its most probes there.
fn on_scene((file, [from, to]): Scene) -> impl Iterator<Item = Request> {
    let cast = move |call| Request {
        call,
        file: file.clone(),
        ray: of_steps(call, [from, 0, 0], [to, 0, 0]),
        room: need(call),
        ..Request::default()
    };
    let needs_most = |cast: &Request| cast.probes().as_ref() == budgets(cast.call).last();
    (0..CHECK).map(cast).filter(needs_most)
}

/// Every such request.
pub fn longest(random: &mut SplitMix64) -> Vec<Request> {
    let empty = cancelling().map(|(file, ends)| (file.build(), ends));
    let scenes = empty.into_iter().chain([1, 2].map(crossing_everywhere));
    let casts = scenes.flat_map(on_scene);
    let with_budget = |cast: Request| {
        budgets(cast.call).iter().map(move |&budget| Request {
            budget,
            ..cast.clone()
        })
    };
    let requests: Vec<Request> = casts.flat_map(with_budget).collect();
    assert_eq!(requests.len(), 64);
    let answer = |request: Request| lent(random, request.answered());
    requests.into_iter().map(answer).collect()
}
