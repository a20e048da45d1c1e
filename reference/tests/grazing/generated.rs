//! Generated grazes: a line at a whole distance from a centre, and a ball whose
//! radius is that distance, one more or one less; the ends are anywhere, and one ray
//! in four is moved a step along an axis.

use crate::calls::Host;
use crate::casts::cast;
use crate::parts::{added, alone, joined, paired, Sign, ORDERS, SIGNS};
use crate::rays::{inner, plus, ray_about, times, Class, Graze, Vector, WHOLE};
use reference::cast::FullCast;
use reference::field::nearest;
use reference::fraction::Fraction;
use reference::generate::SplitMix64;
use reference::part::{FileBuilder, OPERATORS};
use std::collections::BTreeMap;

/// How many grazes, each cast at in two parts.
const GRAZES: u32 = 5_000;

fn common_divisor(a: i32, b: i32) -> i32 {
    match b {
        0 => a.abs(),
        _ => common_divisor(b, a % b),
    }
}

/// A vector as short as whole coordinates allow, and by what it was divided.
fn shortest(v: Vector) -> (Vector, i32) {
    let divisor = v.into_iter().fold(0, common_divisor).max(1);
    (v.map(|c| c / divisor), divisor)
}

/// A direction, a vector at right angles to it, and that vector's whole length:
/// two columns of the rotation that a quaternion of whole numbers stands for, whose
/// numbers are Pythagorean triples and quadruples.
fn line(random: &mut SplitMix64) -> (Vector, Vector, i32) {
    let [a, b, c, d] = [0; 4].map(|_: i32| random.between(-3, 3) as i32);
    let a = if [a, b, c, d] == [0; 4] { 1 } else { a };
    let length = a * a + b * b + c * c + d * d;
    let along = [
        a * a + b * b - c * c - d * d,
        2 * (b * c + a * d),
        2 * (b * d - a * c),
    ];
    let across = [
        2 * (b * c - a * d),
        a * a - b * b + c * c - d * d,
        2 * (c * d + a * b),
    ];
    let (along, (across, divisor)) = (shortest(along).0, shortest(across));
    assert_eq!(inner(along, across), 0);
    assert_eq!(inner(across, across), (length / divisor).pow(2));
    (along, across, length / divisor)
}

/// Two different numbers of directions from the foot.
fn ends(random: &mut SplitMix64) -> (i32, i32) {
    let most = random.pick(&[1, 3, 30, 300]);
    let any = random.between(-most, most) as i32;
    let from = random.pick(&[0, any, any, any]);
    let to = random.between(-most, most) as i32;
    (from, if to == from { from + 1 } else { to })
}

/// A graze, if its numbers are in range.
fn draw(random: &mut SplitMix64) -> Option<Graze> {
    let (along, across, length) = line(random);
    let most = random.pick(&[70, 1025]) / length;
    let multiple = random.between(0, i64::from(most)) as i32;
    let r = multiple * length + random.pick(&[-1, 0, 1]);
    if !(1..=1024).contains(&r) {
        return None;
    }
    let centre = [0; 3].map(|_: i32| random.between(-900, 900) as i32);
    let mut foot = plus(centre, times(multiple, across));
    let mut class = Class::Tangent;
    if random.one_in(4) {
        class = Class::Moved;
        foot[random.between(0, 2) as usize] += random.pick(&[-1, 1]);
    }
    let (from, to) = ends(random);
    let ray = ray_about(foot, along, (-from, to))?;
    let nearest = 0.clamp(from.min(to), from.max(to));
    let graze = Graze {
        class,
        centre,
        r,
        ray,
        near: plus(foot, times(nearest, along)),
        within: false,
    };
    let within = graze.greatest_u(WHOLE) > Fraction::zero();
    Some(Graze { within, ..graze })
}

/// Where the foot is.
fn foot(graze: &Graze) -> &'static str {
    let s = nearest(&graze.ray, &graze.ball(1)).expect("different ends");
    let (start, end) = (Fraction::zero(), Fraction::from(1));
    if s < start || end < s {
        "foot outside"
    } else if s == start || s == end {
        "foot at an end"
    } else {
        "foot inside"
    }
}

/// A part with the ball.
fn part(random: &mut SplitMix64, graze: &Graze) -> FileBuilder {
    let (sign, order) = (random.pick(&SIGNS), random.pick(&ORDERS));
    let kind = random.pick(&OPERATORS);
    match random.between(0, 3) {
        0 => alone(graze, sign),
        1 => paired(graze, sign, kind, order),
        _ => joined(graze, sign, kind, order),
    }
}

/// Casts of the ball added to another point, and of another part. A ball that the
/// ray does not come within changes nothing, and one whose qhi is 6 or more changes
/// the cast.
fn assert_graze(random: &mut SplitMix64, host: &mut Host, graze: &Graze) {
    let other = part(random, graze).build();
    cast(host, &other, &graze.ray);
    let file = added(graze, Sign::Plus).build();
    let (answer, marks) = cast(host, &file, &graze.ray);
    let changed = (answer, marks) != (FullCast::Complete { probes: 1 }, vec![0; 1024]);
    assert!(graze.within || !changed, "{graze:?}");
    let greatest = &Fraction::from(65536) * &graze.greatest_u(WHOLE);
    assert!(changed || greatest <= Fraction::from(5), "{graze:?}");
}

#[test]
fn generated_grazes() {
    let mut random = SplitMix64::new(161);
    let mut host = Host::default();
    let mut counts = BTreeMap::new();
    while counts.values().sum::<u32>() < GRAZES {
        if let Some(graze) = draw(&mut random) {
            assert_graze(&mut random, &mut host, &graze);
            *counts.entry((foot(&graze), graze.within)).or_insert(0) += 1;
        }
    }
    println!("{counts:?}");
    let rare = counts.values().any(|&count| count < 200);
    assert!(counts.len() == 6 && !rare, "{counts:?}");
}
