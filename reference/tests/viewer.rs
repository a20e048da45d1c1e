//! The viewer's floats and its first hit.

use reference::cast::{first_hit, Mark};
use reference::field::{ExactField, Ray};
use reference::generate::{self, Shape, SplitMix64, STYLES};
use reference::part::FileBuilder;
use reference::view::{over_1024, step, viewer_first_hit, viewer_first_hit_by};
use reference::view::{ViewRay, ViewerHit};

fn file_k() -> Vec<u8> {
    FileBuilder::new(1).point(512, [0; 3], 4).build()
}

/// Bits of NaNs, infinities, the greatest finite floats, subnormals and the
/// least normal floats.
const SPECIAL: [u32; 17] = [
    0x7fc0_0000,
    0xffc0_0000,
    0x7f80_0001,
    0xff80_0001,
    0x7fff_ffff,
    0xffff_ffff,
    0x7f80_0000,
    0xff80_0000,
    0x7f7f_ffff,
    0xff7f_ffff,
    0x0000_0001,
    0x8000_0001,
    0x007f_ffff,
    0x807f_ffff,
    0x0040_0000,
    0x0080_0000,
    0x8080_0000,
];

/// Floats whose 64-fold is no step.
fn refused_floats() -> Vec<f32> {
    let mut floats: Vec<f32> = SPECIAL.iter().map(|&b| f32::from_bits(b)).collect();
    floats.extend([32.0, -32.0, 33.0, 64.0, 2047.0, 0.1, 1.0 / 128.0]);
    floats.extend([1e10, -1e10, 1e38, 16_777_216.0, 67_108_864.0]);
    floats.extend([4_294_967_296.0, -4_294_967_296.0]);
    floats
}

#[test]
fn special_floats() {
    for float in refused_floats() {
        assert_eq!(step(float), None, "{float:e}");
    }
    assert_eq!(step(0.0), Some(0));
    assert_eq!(step(-0.0), Some(0));
    assert_eq!(step(2047.0 / 64.0), Some(2047));
    assert_eq!(step(-2047.0 / 64.0), Some(-2047));
    assert_eq!(step(2048.0 / 64.0), None);
    assert_eq!(step(-2048.0 / 64.0), None);
    assert_eq!(step(1.0 / 64.0), Some(1));
    assert_eq!(step(-31.984375), Some(-2047));
}

#[test]
fn whole_steps_and_their_neighbours() {
    for k in -2047..=2047i32 {
        let float = k as f32 / 64.0;
        assert_eq!(step(float), Some(k));
        if k != 0 {
            assert_eq!(step(f32::from_bits(float.to_bits() + 1)), None);
            assert_eq!(step(f32::from_bits(float.to_bits() - 1)), None);
        }
        assert_eq!(step((2 * k + 1) as f32 / 128.0), None);
    }
}

/// The same question by wide floating point: a 64-fold in `f64` is exact.
fn step_by_f64(float: f32) -> Option<i32> {
    let product = f64::from(float) * 64.0;
    let fits = product.is_finite() && product.fract() == 0.0 && product.abs() <= 2047.0;
    fits.then_some(product as i32)
}

#[test]
fn random_floats_agree_with_f64() {
    let mut random = SplitMix64::new(21);
    for _ in 0..200_000 {
        let mut bits = random.next_u64() as u32;
        bits &= u32::MAX << random.between(0, 23);
        if random.one_in(2) {
            let exponent = random.between(117, 135) as u32;
            bits = bits & 0x807f_ffff | exponent << 23;
        }
        let float = f32::from_bits(bits);
        assert_eq!(step(float), step_by_f64(float), "{bits:#x}");
    }
}

#[test]
fn entries_are_exact() {
    for tick in 0..=1024u32 {
        let float = over_1024(tick);
        assert_eq!(float.to_bits(), (tick as f32 / 1024.0).to_bits());
        assert_eq!(f64::from(float) * 1024.0, f64::from(tick));
    }
}

#[test]
fn the_axis_ray() {
    let k = file_k();
    let view = ViewRay {
        a: [-16.0, 0.0, -0.0],
        b: [16.0, -0.0, 0.0],
    };
    let hit = viewer_first_hit(&k, view, 2047);
    let ViewerHit::Hit {
        entry,
        mark,
        probes,
    } = hit
    else {
        panic!("no hit");
    };
    assert_eq!((entry, mark.byte(), probes), (330.0 / 1024.0, 1, 15));
    let spent = ViewerHit::Spent {
        reached: 330.0 / 1024.0,
        probes: 14,
    };
    assert_eq!(viewer_first_hit(&k, view, 14), spent);
    let at_once = ViewerHit::Spent {
        reached: 0.0,
        probes: 0,
    };
    assert_eq!(viewer_first_hit(&k, view, 0), at_once);
    let high = ViewRay {
        a: [-16.0, 8.0, 0.0],
        b: [16.0, 8.0, 0.0],
    };
    let clear = ViewerHit::Clear { probes: 1 };
    assert_eq!(viewer_first_hit(&k, high, 2047), clear);
}

#[test]
fn order_of_questions() {
    let k = file_k();
    for float in refused_floats() {
        for i in 0..6 {
            let mut numbers = [0.0, 0.0, 0.0, 1.0, 1.0, 1.0];
            numbers[i] = float;
            let [ax, ay, az, bx, by, bz] = numbers;
            let view = ViewRay {
                a: [ax, ay, az],
                b: [bx, by, bz],
            };
            assert_eq!(viewer_first_hit(&k, view, 9), ViewerHit::Refused(15));
            assert_eq!(viewer_first_hit(&k[1..], view, 9), ViewerHit::Refused(1));
        }
        let ends = [float, 0.0, 0.0];
        let view = ViewRay { a: ends, b: ends };
        assert_eq!(viewer_first_hit(&k, view, 9), ViewerHit::Refused(15));
    }
    let zero = ViewRay {
        a: [0.0, -0.0, 0.0],
        b: [-0.0, 0.0, -0.0],
    };
    let inside = ViewerHit::Hit {
        entry: 0.0,
        mark: Mark::Inside,
        probes: 1,
    };
    assert_eq!(viewer_first_hit(&k, zero, 9), inside);
    let open = FileBuilder::new(1).point(1, [0; 3], 1).point(1, [0; 3], 1);
    let refused = viewer_first_hit(&open.build(), zero, 9);
    assert_eq!(refused, ViewerHit::Refused(11));
}

#[test]
fn equals_the_first_hit() {
    let mut random = SplitMix64::new(22);
    let shape = Shape {
        points: (1, 4),
        reach: 700,
        radius: (1, 900),
        weight: (-8, 40),
        iso: (1, 6),
    };
    for i in 0..300 {
        let part = generate::part(&mut random, &shape);
        let file = FileBuilder::from(&part).build();
        let ray: Ray = generate::ray(&mut random, &part, STYLES[i % STYLES.len()]);
        let view = ViewRay {
            a: ray.a.map(|c| c as f32 / 64.0),
            b: ray.b.map(|c| c as f32 / 64.0),
        };
        for budget in [0, 1, 5, 12, 20, 2047] {
            let quick = viewer_first_hit(&file, view, budget);
            assert_eq!(quick.in_ticks(), first_hit(&file, &ray, budget));
            let exact = viewer_first_hit_by::<ExactField>(&file, view, budget);
            assert_eq!(exact, quick);
        }
    }
}
