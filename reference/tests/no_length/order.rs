//! The questions in their order, on rays of no length: 1 to 11, then 12, or 15 of the
//! viewer, then 14; and what the totals are after such calls.

use crate::calls::{Call, Host, CALLS};
use crate::entries;
use crate::floats::{OTHER, SPECIAL};
use crate::listed::k;
use crate::scenes::{Scene, ENOUGH};
use reference::field::{ExactField, Ray};
use reference::generate::fault;
use reference::part::read;
use reference::totals::Totals;
use reference::view::ViewRay;

/// Coordinates beside the range and far from it.
const FAR: [i32; 5] = [2048, -2048, 65_536, i32::MAX, i32::MIN];

/// Rooms that are too small or enough.
fn rooms(call: Call) -> Vec<usize> {
    match call.need() {
        0 => vec![0],
        need => vec![0, 1, need - 1, need, need + 9],
    }
}

/// The call refuses with the number in all these rooms, whatever the budget.
fn assert_refused(host: &mut Host, call: Call, file: &[u8], at: [i32; 3], number: u64) {
    let ray = Ray { a: at, b: at };
    for room in rooms(call) {
        for budget in [0, 11, u32::MAX] {
            let answer = host.compare::<ExactField>(call, (file, &ray), budget, room);
            assert_eq!(answer.number, number, "{call:?} {at:?} {room}");
        }
    }
}

#[test]
fn damaged_files_come_first() {
    let mut host = Host::default();
    for question in 1..=11 {
        let file = fault(k(), question).build();
        for at in [[0; 3], [362, 5, 2], [2048; 3], [i32::MIN; 3]] {
            for call in CALLS {
                assert_refused(&mut host, call, &file, at, question.into());
            }
        }
    }
}

#[test]
fn then_the_range() {
    let mut host = Host::default();
    for far in FAR {
        for i in 0..3 {
            let mut at = [362, 5, 2];
            at[i] = far;
            for call in CALLS {
                let number = if call == Call::Viewer { 15 } else { 12 };
                assert_refused(&mut host, call, &k().build(), at, number);
            }
        }
    }
}

#[test]
fn then_the_room() {
    let mut host = Host::default();
    for at in [[0; 3], [362, 5, 2], [512, 0, 0], [2047; 3]] {
        let (file, ray) = (k().build(), Ray { a: at, b: at });
        for call in CALLS {
            for room in rooms(call) {
                let answer = host.compare::<ExactField>(call, (&file, &ray), ENOUGH, room);
                assert_eq!(answer.number == 14, room < call.need(), "{call:?} {room}");
                assert!(answer.number == 14 || answer.number > 65_536);
            }
        }
    }
}

/// Ends that coincide and are no whole steps, in one coordinate or in all.
#[test]
fn floats_that_are_no_steps() {
    let special = SPECIAL.map(f32::from_bits).into_iter().chain(OTHER);
    let between = (-70..70).map(|n| (2 * n + 1) as f32 / 128.0);
    for float in special.chain(between) {
        let ends = [0, 1, 2].map(|i| {
            let mut end = [0.5; 3];
            end[i] = float;
            end
        });
        for a in ends.into_iter().chain([[float; 3]]) {
            let view = ViewRay { a, b: a };
            for budget in [0, 11, u32::MAX] {
                let number = entries::viewer_first_hit(&k().build(), &view, budget);
                assert_eq!(number, 15, "{float}");
            }
        }
    }
}

/// Each call is a cast with its probes; a refused one is a refusal.
#[test]
fn totals() {
    let k = read(&k().build()).expect("accepted");
    let mut totals = Totals::default();
    let mut call_all = |at: [i32; 3], budget: u32| {
        let Scene { file, ray, .. } = Scene::new(k.clone(), at);
        for call in CALLS {
            totals = call
                .of_archive(&file, &ray, budget, call.need(), totals)
                .totals;
        }
        <[u64; 3]>::from(totals)
    };
    let undecided = 2047 + 2052 + 11 + 2047 + 11;
    assert_eq!(call_all([362, 5, 2], ENOUGH), [5, undecided, 0]);
    assert_eq!(call_all([0; 3], ENOUGH), [10, undecided + 9, 0]);
    assert_eq!(call_all([512, 0, 0], ENOUGH), [15, undecided + 18, 0]);
    assert_eq!(call_all([2048; 3], ENOUGH), [15, undecided + 18, 5]);
    // spent, but for the column, which has no budget
    let spent = undecided + 18 + 4 * 7 + 2047;
    assert_eq!(call_all([362, 5, 2], 7), [20, spent, 5]);
}
