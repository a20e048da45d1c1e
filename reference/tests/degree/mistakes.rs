//! Mistaken rules for sizes, each found by places and by casting calls of the archive.
//! Degree 4's figures of the accuracy are no mistake that a place could find; see
//! `accuracy`. Mistaken versions are in `versions`.

use crate::calls::{Call, CALLS};
use crate::casts::at_place;
use crate::rules::{place_bounds, By, Cubes, HighDown, LowUp, Right, Rule};
use crate::rules::{SquareRounded, Squares};
use crate::scenes::{drawn, listed, Scene};
use reference::field::Bounds;
use reference::part::{Degree, DEGREES};
use reference::totals::Totals;

/// Where the archive contradicts a rule.
#[derive(Clone, Copy, Debug, Default, PartialEq, Eq)]
struct Found {
    places: u32,
    /// Calls, by their kind.
    calls: [u32; 5],
}

/// Whether the archive's bounds at a place are not the rule's.
fn place_differs<R: Rule>(scene: &Scene, degree: Degree, at: [i32; 3]) -> bool {
    let Bounds { low, high } = place_bounds::<R>(&scene.part(degree), at);
    at_place(&scene.file(degree), at) != (65_536, [low, high])
}

fn accepted(at: &[i32; 3]) -> bool {
    at.iter().all(|c| (-2047..=2047).contains(c))
}

/// Where the archive contradicts the rule on files of one version.
fn found<R: Rule>(scenes: &[Scene], degree: Degree) -> Found {
    let mut found = Found::default();
    for scene in scenes {
        let places = scene.places.iter().copied().filter(accepted);
        let differ = places.filter(|&at| place_differs::<R>(scene, degree, at));
        found.places += differ.count() as u32;
        let file = scene.file(degree);
        for (call, ray) in (0..5).flat_map(|i| scene.rays.iter().map(move |ray| (i, ray))) {
            let of = |call: Call| {
                let room = call.need();
                let right = call.of_archive(&file, ray, 2052, room, Totals::default());
                right != call.by::<By<R>>(&file, ray, 2052, room, Totals::default())
            };
            found.calls[call] += u32::from(of(CALLS[call]));
        }
    }
    found
}

#[test]
fn the_archive_contradicts_each_mistake() {
    let some = drawn(306).into_iter().step_by(3);
    let scenes: Vec<Scene> = listed().into_iter().chain(some).collect();
    let none = Found::default();
    for degree in DEGREES {
        assert_eq!(found::<Right>(&scenes, degree), none);
    }
    // each is right of the other version
    assert_eq!(found::<Squares>(&scenes, Degree::Four), none);
    assert_eq!(found::<Cubes>(&scenes, Degree::Six), none);
    let mistakes = [
        (
            "u squared in version 2",
            found::<Squares>(&scenes, Degree::Six),
        ),
        (
            "u cubed in version 1",
            found::<Cubes>(&scenes, Degree::Four),
        ),
        (
            "the high rounded down",
            found::<HighDown>(&scenes, Degree::Six),
        ),
        ("the low rounded up", found::<LowUp>(&scenes, Degree::Six)),
        (
            "the square rounded",
            found::<SquareRounded>(&scenes, Degree::Six),
        ),
    ];
    println!("{mistakes:#?}");
    for (name, found) in mistakes {
        assert!(found.places >= 150, "{name} {found:?}");
        assert!(
            found.calls.iter().all(|&count| count >= 1),
            "{name} {found:?}"
        );
    }
    for (name, found) in &mistakes[..2] {
        assert!(
            found.calls.iter().all(|&count| count >= 50),
            "{name} {found:?}"
        );
    }
}
