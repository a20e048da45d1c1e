//! The viewer's first hit of the archive on special floats, on every step and
//! the floats next to it, on the worked rays, and on the order of its questions.

#[path = "common/counted.rs"]
mod counted;
#[path = "common/floats.rs"]
mod floats;
#[path = "common/worked.rs"]
mod worked;

use counted::view;
use floats::{OTHER, SPECIAL};
use reference::cast::Mark;
use reference::field::Ray;
use reference::generate::{fault, lattice};
use reference::part::FileBuilder;
use reference::totals::Totals;
use reference::view::{in_millimetres, ViewRay, ViewerHit};
use worked::{at_y, file_k, AXIS};

/// Budgets of a hit's probes and about them, and about the most probes.
const BUDGETS: [u32; 9] = [0, 1, 2, 9, 14, 15, 2046, 2047, u32::MAX];

/// A slanted ray through file K's point. Its ends stay apart whatever step one
/// coordinate is set to.
const SLANTED: [f32; 6] = [-16.0, 0.5, -0.25, 16.0, -1.5, 2.25];

/// A ray of six floats, A's three and then B's.
fn view_ray([ax, ay, az, bx, by, bz]: [f32; 6]) -> ViewRay {
    ViewRay {
        a: [ax, ay, az],
        b: [bx, by, bz],
    }
}

/// The slanted ray with another float in one of the six places.
fn slanted_but(place: usize, float: f32) -> ViewRay {
    let mut six = SLANTED;
    six[place] = float;
    view_ray(six)
}

/// Floats that are refused.
fn refused_floats() -> Vec<f32> {
    let special = SPECIAL.map(f32::from_bits);
    special.into_iter().chain(OTHER).collect()
}

/// The call refuses with the number, whatever the budget.
fn assert_refused(file: &[u8], ray: ViewRay, number: u32) {
    let mut totals = Totals::default();
    for budget in [0, 15, 2047, u32::MAX] {
        let answer = view(file, &ray, budget, &mut totals);
        assert_eq!(answer, ViewerHit::Refused(number), "{ray:?}");
    }
    assert_eq!((totals.casts, totals.probes, totals.refusals), (0, 0, 4));
}

#[test]
fn special_floats_in_each_place() {
    let files = [
        file_k(),
        FileBuilder::from(&lattice([3, 2, 2])).build(),
        FileBuilder::new(1).point(1, [2047; 3], -1).build(),
    ];
    for file in &files {
        for place in 0..6 {
            for float in refused_floats() {
                assert_refused(file, slanted_but(place, float), 15);
            }
        }
    }
}

#[test]
fn minus_zero_is_zero() {
    let mut totals = Totals::default();
    for budget in BUDGETS {
        for place in 0..6 {
            let [zero, minus] = [0.0, -0.0].map(|z| slanted_but(place, z));
            let answer = view(&file_k(), &zero, budget, &mut totals);
            assert_ne!(answer.probes(), None);
            assert_eq!(view(&file_k(), &minus, budget, &mut totals), answer);
        }
    }
}

#[test]
fn every_step_and_its_neighbours_in_each_place() {
    let file = file_k();
    let mut totals = Totals::default();
    for k in -2049..=2049i32 {
        let step = k as f32 / 64.0;
        let others = [
            step.next_down(),
            step.next_up(),
            (2 * k - 1) as f32 / 128.0,
            (2 * k + 1) as f32 / 128.0,
        ];
        for place in 0..6 {
            let budget = BUDGETS[(k + 2049) as usize % BUDGETS.len()];
            let answer = view(&file, &slanted_but(place, step), budget, &mut totals);
            assert_eq!(answer.probes().is_some(), k.abs() <= 2047, "{k}");
            for float in others {
                let answer = view(&file, &slanted_but(place, float), budget, &mut totals);
                assert_eq!(answer, ViewerHit::Refused(15), "{k} {float}");
            }
        }
    }
    assert_eq!(totals.casts, 6 * 4095);
    assert_eq!(totals.refusals, 6 * (4 * 4099 + 4));
}

#[test]
fn both_ends_of_the_range() {
    let mut totals = Totals::default();
    for sign in [1.0, -1.0] {
        let last = sign * 2047.0 / 64.0;
        let beyond = sign * 2048.0 / 64.0;
        let ray = |float: f32| view_ray([float, float, float, -last, -last, -last]);
        for budget in BUDGETS {
            let answer = view(&file_k(), &ray(last), budget, &mut totals);
            assert_ne!(answer.probes(), None);
        }
        for float in [last, beyond] {
            assert_refused(&file_k(), ray(float.next_up()), 15);
            assert_refused(&file_k(), ray(float.next_down()), 15);
        }
        for place in 0..6 {
            assert_refused(&file_k(), slanted_but(place, beyond), 15);
        }
        assert_refused(&file_k(), view_ray([beyond; 6]), 15);
    }
}

#[test]
fn the_axis_ray() {
    let (k, ray) = (file_k(), in_millimetres(&AXIS));
    let place = 330.0 / 1024.0;
    let hit = ViewerHit::Hit {
        entry: place,
        mark: Mark::Crossing,
        probes: 15,
    };
    let spent = ViewerHit::Spent {
        reached: place,
        probes: 14,
    };
    let mut totals = Totals::default();
    for budget in [15, 16, 39, 2046, 2047, u32::MAX] {
        assert_eq!(view(&k, &ray, budget, &mut totals), hit);
    }
    assert_eq!(view(&k, &ray, 14, &mut totals), spent);
    assert_eq!((totals.casts, totals.probes), (7, 104));
    for budget in 0..=41 {
        let answer = view(&k, &ray, budget, &mut totals);
        let spent = matches!(answer, ViewerHit::Spent { .. });
        assert_eq!(spent, budget < 15);
    }
    let number = counted::entries::viewer_first_hit(&k, &ray, 15);
    assert_eq!(number, (1 << 32) + (330 << 16) + 15);
    assert_eq!(counted::place_of(number).to_bits(), 0x3ea5_0000);
}

#[test]
fn other_worked_rays() {
    let mut totals = Totals::default();
    let clear = ViewerHit::Clear { probes: 1 };
    let ray = in_millimetres(&at_y(512));
    assert_eq!(view(&file_k(), &ray, 1, &mut totals), clear);
    let ray = in_millimetres(&at_y(362));
    let answer = view(&file_k(), &ray, 2047, &mut totals);
    assert!(matches!(answer, ViewerHit::Hit { entry, .. } if entry == 509.0 / 1024.0));
    let file = FileBuilder::new(1).point(1024, [0; 3], 4096).build();
    let short = Ray {
        a: [1, 0, 0],
        b: [2, 0, 0],
    };
    let inside = ViewerHit::Hit {
        entry: 0.0,
        mark: Mark::Inside,
        probes: 1,
    };
    let ray = in_millimetres(&short);
    assert_eq!(view(&file, &ray, 1, &mut totals), inside);
}

#[test]
fn the_file_comes_first() {
    let k = FileBuilder::new(1).point(512, [0; 3], 4);
    for question in 1..=11 {
        let file = fault(k.clone(), question).build();
        assert_refused(&file, view_ray(SLANTED), question);
        assert_refused(&file, view_ray([0.5; 6]), question);
        assert_refused(&file, view_ray([32.0; 6]), question);
        for (i, float) in refused_floats().into_iter().enumerate() {
            assert_refused(&file, slanted_but(i % 6, float), question);
            assert_refused(&file, view_ray([float; 6]), question);
        }
    }
}

#[test]
fn floats_of_ends_that_coincide() {
    for float in refused_floats() {
        for place in 0..3 {
            let mut six = [1.0; 6];
            (six[place], six[place + 3]) = (float, float);
            assert_refused(&file_k(), view_ray(six), 15);
        }
        assert_refused(&file_k(), view_ray([float; 6]), 15);
    }
}

/// A hit at entry 0 in the solid, clear outside it, with one probe each.
#[test]
fn ends_that_coincide() {
    let mut totals = Totals::default();
    let mut hits = 0;
    for k in -2047..=2047i32 {
        let end = [k, -k, 300 - k.abs() / 8];
        let ray = in_millimetres(&Ray { a: end, b: end });
        let answer = view(&file_k(), &ray, 2047, &mut totals);
        let hit = matches!(answer, ViewerHit::Hit { entry, .. } if entry == 0.0);
        let far: i32 = end.iter().map(|c| c * c).sum();
        assert_eq!(hit, far <= 131_072, "{end:?}");
        assert_eq!(answer.probes(), Some(1));
        hits += u32::from(hit);
    }
    assert!((100..1_000).contains(&hits), "{hits}");
    let zeros = [0.0, -0.0, 0.0, -0.0, 0.0, 0.0];
    let answer = view(&file_k(), &view_ray(zeros), 2047, &mut totals);
    assert_eq!((answer.probes(), totals.probes), (Some(1), 4096));
}
