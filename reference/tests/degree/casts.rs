//! Places and casting calls of parts of version 2, compared with the exact fractions;
//! and of the same parts of version 1, compared with a reference that knows degree 4
//! only.

use crate::calls::{Answer, Call, Host, CALLS};
use crate::entries;
use crate::rules::{By, Squares};
use crate::scenes::{drawn, listed, Scene};
use reference::cast::bounds_at;
use reference::field::{Bounds, ExactField, Ray, SpanBounds};
use reference::part::{read, Degree, DEGREES};

/// What the bounds' two numbers are before a call.
const BEFORE: [i64; 2] = [-7, 7];

/// A budget with which every call is complete.
const ENOUGH: u32 = 2052;

/// The archive's number and bounds at a place.
pub fn at_place(file: &[u8], place: [i32; 3]) -> (u32, [i64; 2]) {
    let mut bounds = BEFORE;
    let number = entries::place_bounds(file, place, &mut bounds);
    (number, bounds)
}

/// What was compared.
#[derive(Debug, Default)]
struct Seen {
    places: u32,
    rays: u32,
    calls: u64,
    /// Marks of complete full casts.
    marks: [u32; 3],
    spent: u32,
    /// Parts of which a casting call has another answer in the other version.
    differ: u32,
}

/// Budgets up to the probes that a complete call makes, and past them: every one if
/// asked and there are not many.
fn budgets(count: u32, every: bool) -> Vec<u32> {
    match count {
        300.. => vec![0, 7, count - 1],
        _ if every => (0..=count + 1).collect(),
        _ => vec![0, 1, 7, count / 2, count - 1, count, count + 1, u32::MAX],
    }
}

/// The probes that the number tells.
fn probes(answer: &Answer) -> u32 {
    (answer.number & 0xffff) as u32
}

/// Each call on a ray, complete and with budgets, compared by the bounds named; the
/// complete answers.
fn cast<F: SpanBounds>(
    host: &mut Host,
    seen: &mut Seen,
    request: (&[u8], &Ray),
    every: bool,
) -> Vec<Answer> {
    let complete = CALLS.map(|call| host.compare::<F>(call, request, ENOUGH, call.need()));
    for (call, answer) in CALLS.into_iter().zip(&complete) {
        let budgets = match call {
            Call::Column => Vec::new(),
            _ => budgets(probes(answer), every),
        };
        for budget in budgets {
            let answer = host.compare::<F>(call, request, budget, call.need() + 3);
            seen.spent += u32::from(answer.number >> 17 == 1 || answer.number >> 32 == 4);
        }
    }
    for mark in &complete[0].bytes {
        if let Some(count) = seen.marks.get_mut(usize::from(*mark)) {
            *count += 1;
        }
    }
    seen.rays += 1;
    complete.to_vec()
}

/// The bounds at the places, those of the fractions.
fn assert_places(seen: &mut Seen, file: &[u8], places: &[[i32; 3]]) -> Vec<(u32, [i64; 2])> {
    let found = places.iter().map(|&place| {
        let found = at_place(file, place);
        let right = match bounds_at(file, place) {
            Ok(Bounds { low, high }) => (65_536, [low, high]),
            Err(number) => (number, BEFORE),
        };
        assert_eq!(found, right, "{place:?} {file:?}");
        seen.places += 1;
        found
    });
    found.collect()
}

/// The calls of a scene in both versions. Some place or call tells them apart.
fn assert_scene(hosts: &mut [Host; 2], seen: &mut [Seen; 2], scene: &Scene, every: bool) {
    let [first, second] = DEGREES.map(|degree| scene.file(degree));
    let [of_first, of_second] = seen;
    let mut differ = [
        assert_places(of_first, &first, &scene.places)
            != assert_places(of_second, &second, &scene.places),
        false,
    ];
    for ray in &scene.rays {
        let old = cast::<By<Squares>>(&mut hosts[0], of_first, (&first, ray), every);
        let new = cast::<ExactField>(&mut hosts[1], of_second, (&second, ray), every);
        let mut both = old.iter().zip(&new);
        differ[1] |= both.any(|(x, y)| (x.number, &x.bytes) != (y.number, &y.bytes));
    }
    assert!(differ.contains(&true), "{scene:?}");
    for seen in seen {
        seen.differ += u32::from(differ[1]);
    }
}

#[test]
fn both_versions() {
    let mut hosts = [Host::default(), Host::default()];
    let mut seen = [Seen::default(), Seen::default()];
    let scenes: Vec<Scene> = listed().into_iter().chain(drawn(301)).collect();
    for (i, scene) in scenes.iter().enumerate() {
        assert_scene(&mut hosts, &mut seen, scene, i % 8 == 0);
    }
    for (seen, host) in seen.iter_mut().zip(&hosts) {
        seen.calls = host.calls();
        println!("{} parts, {seen:?}", scenes.len());
        assert!(seen.marks.iter().all(|&count| count >= 2_000));
        assert!(seen.spent >= 3_000 && seen.rays >= 500 && seen.places >= 900);
        assert!(seen.differ >= 60);
    }
}

/// The degree that a part is read as is the version's.
#[test]
fn parts_have_the_degree_of_their_version() {
    for (scene, degree) in drawn(302)
        .iter()
        .flat_map(|s| DEGREES.map(|d| (s.clone(), d)))
    {
        let file = scene.file(degree);
        let version = usize::from(degree == Degree::Six) as u64 + 1;
        assert_eq!(entries::check(&file) >> 32, version);
        assert_eq!(read(&file), Ok(scene.part(degree)));
    }
}
