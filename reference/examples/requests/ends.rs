//! Rays whose ends coincide, at places that the bounds there decide and at places that
//! they leave open, and rays whose ends are one step apart.

use crate::drawn::lent;
use crate::limits::of_steps;
use crate::middles::about_the_sum;
use crate::request::{casting, need, Request, CHECK, COLUMN, MARCH, VIEW};
use reference::generate::SplitMix64;
use reference::part::FileBuilder;
use std::collections::BTreeSet;

/// A file and a place.
type Scene = (FileBuilder, [i32; 3]);

fn k(version: u16) -> FileBuilder {
    FileBuilder::new(1).point(512, [0; 3], 4).version(version)
}

/// 64 points held at once that cancel: where their bounds are not exact, the place is
/// left open.
fn held(version: u16) -> FileBuilder {
    let weight = |n: i32| if n % 2 == 0 { 4096 } else { -4096 };
    let add = |file: FileBuilder, n| file.point(1024, [-1, 0, 0], weight(n));
    let held = (0..64).fold(FileBuilder::new(1), add);
    (1..64).fold(held.version(version), |file, _| file.sum())
}

/// Places of file K that its bounds leave open, in each version.
const OPEN: [(u16, [i32; 3]); 2] = [(1, [362, 5, 2]), (2, [311, 5, 16])];

/// In each version: empty places of file K, two of them at the limits of a coordinate, one
/// inside it, and places left open: of K, of the 64 points, and where the bounds add up to
/// twice the iso-value, to 1 less and to 1 more.
fn places() -> Vec<Scene> {
    let of_version = |(version, open)| {
        let of_k = [[512, 0, 0], [2047; 3], [-2047; 3], [0; 3], open];
        let of_k = of_k.map(|at| (k(version), at));
        of_k.into_iter().chain([(held(version), [40, 1, 0])])
    };
    let of_sums = about_the_sum().map(|(file, _)| (file, [1, 0, 0]));
    OPEN.into_iter()
        .flat_map(of_version)
        .chain(of_sums)
        .collect()
}

/// A casting call on a file and a ray.
fn cast(call: u8, file: &FileBuilder, ray: [u32; 6]) -> Request {
    Request {
        call,
        file: file.build(),
        ray,
        room: need(call),
        ..Request::default()
    }
}

/// The place as both ends; for the viewer, where a coordinate is 0, also with minus zero
/// as A's or as B's.
fn at_place(call: u8, at: [i32; 3]) -> BTreeSet<[u32; 6]> {
    let ray = of_steps(call, at, at);
    let negated = |ends: [bool; 2]| {
        let minus = |i: usize| casting(call) == Some(VIEW) && ray[i] == 0 && ends[i / 3];
        [0, 1, 2, 3, 4, 5].map(|i| ray[i] | u32::from(minus(i)) << 31)
    };
    let ends = [[false, false], [false, true], [true, false]];
    ends.map(negated).into()
}

/// The cast with none, one, about as many probes as it needs, and always enough; a column
/// has no budget.
fn budgeted(cast: Request) -> Vec<Request> {
    let probes = cast.probes().expect("an accepted ray");
    let about = [0, 1, probes - 1, probes, probes + 1, 2047, 2052];
    let budgets: BTreeSet<u32> = match casting(cast.call) {
        Some(COLUMN) => [0].into(),
        Some(MARCH) => about.into(),
        _ => about[..6].iter().copied().collect(),
    };
    let with_budget = |budget| Request {
        budget,
        ..cast.clone()
    };
    budgets.into_iter().map(with_budget).collect()
}

/// Each casting call at a place, with each budget.
fn on_place((file, at): Scene) -> Vec<Request> {
    let casts = (0..CHECK).flat_map(|call| {
        let rays = at_place(call, at).into_iter();
        rays.map(move |ray| (call, ray)).collect::<Vec<_>>()
    });
    let casts = casts.map(|(call, ray)| cast(call, &file, ray));
    casts.flat_map(budgeted).collect()
}

/// Each casting call from a place to the six that are a step apart from it.
fn a_step_apart((file, a): Scene) -> Vec<Request> {
    let step = |n: usize| {
        let mut b = a;
        b[n / 2] += [1, -1][n % 2];
        b
    };
    let casts = (0..6 * usize::from(CHECK)).map(|n| {
        let call = (n / 6) as u8;
        cast(call, &file, of_steps(call, a, step(n % 6)))
    });
    let enough = |cast| Request {
        budget: 2052,
        ..cast
    };
    casts.map(enough).collect()
}

/// Every such request.
pub fn ends(random: &mut SplitMix64) -> Vec<Request> {
    let apart = OPEN.into_iter().flat_map(|(version, open)| {
        let places = [open, [-1024, 32, -16]];
        places.map(|at| (k(version), at))
    });
    let apart = apart.flat_map(a_step_apart);
    let requests: Vec<Request> = places()
        .into_iter()
        .flat_map(on_place)
        .chain(apart)
        .collect();
    assert_eq!(requests.len(), 1296);
    let answer = |request: Request| lent(random, request.answered());
    requests.into_iter().map(answer).collect()
}
