//! The viewer's floats: its answer is the first hit's at the place, whatever the signs
//! of its zeros.

use crate::entries;
use crate::listed::k;
use crate::scenes::Scene;
use reference::cast::Mark;
use reference::field::ExactField;
use reference::part::read;
use reference::view::{in_millimetres, viewer_first_hit_by, ViewRay};

/// Places of file K with a coordinate 0 or more, and their marks.
const PLACES: [([i32; 3], Mark); 9] = [
    ([0, 0, 0], Mark::Inside),
    ([0, 362, 0], Mark::Inside),
    ([-256, 0, 256], Mark::Inside),
    ([257, 255, 0], Mark::Crossing),
    ([0, -257, 255], Mark::Crossing),
    ([-255, 0, -257], Mark::Crossing),
    ([512, 0, 0], Mark::Empty),
    ([0, 0, -512], Mark::Empty),
    ([0, 2047, 0], Mark::Empty),
];

/// The ray with a minus sign at each of its six floats that is zero and whose bit is
/// set.
fn with_signs(ray: &ViewRay, signs: usize) -> ViewRay {
    let signed = |end: [f32; 3], signs: usize| {
        [0, 1, 2].map(|i| match end[i] == 0.0 && signs >> i & 1 == 1 {
            true => -0.0,
            false => end[i],
        })
    };
    ViewRay {
        a: signed(ray.a, signs),
        b: signed(ray.b, signs >> 3),
    }
}

#[test]
fn either_zero() {
    let k = read(&k().build()).expect("accepted");
    let mut minus = 0;
    for (at, mark) in PLACES {
        let scene = Scene::new(k.clone(), at);
        assert_eq!(scene.mark, mark, "{at:?}");
        let (file, view) = (&scene.file, in_millimetres(&scene.ray));
        for (signs, budget) in (0..64).flat_map(|s| [0, 1, 10, 11, 2047].map(|b| (s, b))) {
            let view = with_signs(&view, signs);
            let hit = entries::first_hit(file, &scene.ray, budget);
            assert_eq!(entries::viewer_first_hit(file, &view, budget), hit);
            let exact = viewer_first_hit_by::<ExactField>(file, view, budget);
            assert_eq!(exact.in_ticks().number(), hit, "{view:?} {budget}");
            let differs = |i: &usize| view.a[*i].to_bits() != view.b[*i].to_bits();
            minus += u32::from((0..3).any(|i| differs(&i)));
        }
    }
    println!("{minus} calls with ends of other bits");
    assert!(minus > 1_000);
}
