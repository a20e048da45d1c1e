//! The exact range of u and the bounds: enclosing, nested, attained, and the
//! quick path equal to the fractions.

use reference::cast::{bounds_at, full_cast};
use reference::field::{
    field_at, field_on_ray, middle_bounds, middle_of, nearest, place_bounds, rounding, span_bounds,
    tick_bounds, tolerance, u_at, u_range, whole_place, Bounds, ExactField, Ray, SpanBounds,
};
use reference::fraction::Fraction;
use reference::generate::{self, Shape, SplitMix64, STYLES};
use reference::part::{read, Degree, FileBuilder, Kind, Node, Part, OPERATORS};
use reference::quick::TickField;

const SHAPES: [Shape; 3] = [
    Shape {
        points: (1, 4),
        reach: 600,
        radius: (50, 1024),
        weight: (-10, 10),
        iso: (1, 4),
    },
    Shape {
        points: (1, 4),
        reach: 9,
        radius: (1, 9),
        weight: (-4096, 4096),
        iso: (1, 4),
    },
    Shape {
        points: (3, 9),
        reach: 2047,
        radius: (1, 1024),
        weight: (-4096, 4096),
        iso: (1, 4),
    },
];

fn fraction(num: i128, den: i128) -> Fraction {
    Fraction::new(num, den).expect("denominator not 0")
}

/// Calls `each` with random parts and rays of all shapes and styles.
fn for_cases(seed: u64, count: usize, mut each: impl FnMut(&mut SplitMix64, &Part, &Ray)) {
    let mut random = SplitMix64::new(seed);
    for shape in &SHAPES {
        for style in STYLES {
            for _ in 0..count {
                let part = generate::part(&mut random, shape);
                let ray = generate::ray(&mut random, &part, style);
                each(&mut random, &part, &ray);
            }
        }
    }
}

/// A random span with ends in order: short, long or a single place.
fn random_span(random: &mut SplitMix64) -> (Fraction, Fraction) {
    let m = random.pick(&[1, 2, 3, 7, 100, 1024, 7168, 7169, 99_991]);
    let from = random.between(0, m);
    let longest = random.pick(&[0, 1, 20, 100_000]);
    let to = random.between(from, (from + longest).min(m));
    (
        fraction(from.into(), m.into()),
        fraction(to.into(), m.into()),
    )
}

/// The place k/n of the way through a span.
fn within(span: &(Fraction, Fraction), k: i64, n: i64) -> Fraction {
    let width = &span.1 - &span.0;
    &span.0 + &(&width * &fraction(k.into(), n.into()))
}

fn in_units(bound: i64) -> Fraction {
    fraction(bound.into(), 1 << 32)
}

fn points(part: &Part) -> impl Iterator<Item = &Node> {
    part.nodes.iter().filter(|node| node.kind == Kind::Point)
}

#[test]
fn bounds_enclose_the_field() {
    for_cases(51, 150, |random, part, ray| {
        let span = random_span(random);
        let bounds = span_bounds(part, ray, &span.0, &span.1).expect("a tree");
        let (low, high) = (in_units(bounds.low), in_units(bounds.high));
        let mut places: Vec<Fraction> = (0..=11).map(|k| within(&span, k, 11)).collect();
        places.extend(points(part).filter_map(|point| nearest(ray, point)));
        for s in places.iter().filter(|s| span.0 <= **s && **s <= span.1) {
            let field = field_at(part, &ray.place(s)).expect("a tree");
            assert!(low <= field && field <= high, "{s} {field} {bounds:?}");
        }
    });
}

#[test]
fn place_bounds_are_those_of_a_span_of_one_place() {
    for_cases(52, 80, |random, part, ray| {
        let (s, _) = random_span(random);
        let place = ray.place(&s);
        let at = place_bounds(part, &place).expect("a tree");
        assert_eq!(span_bounds(part, ray, &s, &s), Some(at));
        let field = field_at(part, &place).expect("a tree");
        assert!(in_units(at.low) <= field && field <= in_units(at.high));
        let file = FileBuilder::from(part).build();
        let whole = place_bounds(part, &whole_place(ray.a));
        assert_eq!(bounds_at(&file, ray.a).ok(), whole);
        let still = Ray { a: ray.a, b: ray.a };
        assert_eq!(tick_bounds(part, &still, 0, 1024), whole);
    });
}

#[test]
fn nested_spans_have_no_looser_bounds() {
    for_cases(53, 150, |random, part, ray| {
        let outer = random_span(random);
        let (k, n) = (random.between(0, 6), random.between(1, 13));
        let start = within(&outer, k.min(n), n);
        let end = within(&(start.clone(), outer.1.clone()), random.between(0, 7), 7);
        let wide = span_bounds(part, ray, &outer.0, &outer.1).expect("a tree");
        let narrow = span_bounds(part, ray, &start, &end).expect("a tree");
        assert!(wide.low <= narrow.low && narrow.high <= wide.high);
    });
}

#[test]
fn halves_together_bound_the_whole() {
    for_cases(54, 60, |random, part, ray| {
        let from = random.between(0, 1022) as u32;
        let to = random.between(i64::from(from) + 2, 1024) as u32;
        let middle = (from + to) / 2;
        for point in points(part) {
            let single = Part {
                iso: 1,
                degree: part.degree,
                nodes: vec![Node { w: 1, ..*point }],
            };
            let bounds = |a, b| tick_bounds(&single, ray, a, b).expect("a tree");
            let (left, right) = (bounds(from, middle), bounds(middle, to));
            let whole = bounds(from, to);
            assert_eq!(whole.low, left.low.min(right.low));
            assert_eq!(whole.high, left.high.max(right.high));
        }
    });
}

/// No sampled u lies outside the range, the least is met at an end, and the
/// greatest is as close to a sample as the spacing allows: moving by half a
/// spacing from the nearest place adds at most |B-A|^2 spacing^2 / 4 to d^2.
#[test]
fn the_range_of_u_is_exact() {
    let samples = 40;
    for_cases(55, 60, |random, part, ray| {
        let span = random_span(random);
        let length: i64 = ray.differences().iter().map(|d| d * d).sum();
        let spacing = &(&span.1 - &span.0) * &fraction(1, samples);
        for point in points(part) {
            let (least, greatest) = u_range(ray, point, &span.0, &span.1);
            let u = |s: &Fraction| u_at(&ray.place(s), point);
            let mut most = Fraction::zero();
            for k in 0..=samples as i64 {
                let sample = u(&within(&span, k, samples as i64));
                assert!(least <= sample && sample <= greatest);
                most = most.max(sample);
            }
            assert_eq!(least, u(&span.0).min(u(&span.1)));
            let r = i128::from(point.r);
            let slack = &(&spacing * &spacing) * &fraction(length.into(), 4 * r * r);
            assert!(&greatest - &most <= slack);
        }
    });
}

/// Around the nearest place the distance grows on both sides by the same.
#[test]
fn the_nearest_place_is_a_centre_of_symmetry() {
    for_cases(56, 60, |random, part, ray| {
        let way = fraction(random.between(1, 999).into(), 1000);
        for point in points(part) {
            let s = nearest(ray, point).expect("ends differ");
            let distance = |s: &Fraction| reference::field::distance_squared(&ray.place(s), point);
            let (before, after) = (distance(&(&s - &way)), distance(&(&s + &way)));
            assert_eq!(before, after);
            assert!(distance(&s) < before);
        }
    });
}

#[test]
fn quick_bounds_equal_the_fractions() {
    for_cases(57, 60, |random, part, ray| {
        let field = TickField::new(part, *ray);
        for _ in 0..40 {
            let first = random.between(0, 1023) as u32;
            let longest = random.pick(&[1, 3, 64, 1024]);
            let after = random.between(1, longest) as u32 + first;
            let after = after.min(1024);
            let slow = tick_bounds(part, ray, first, after);
            assert_eq!(field.bounds(first, after), slow);
        }
        let whole = tick_bounds(part, ray, 0, 1024);
        assert_eq!(field.bounds(0, 1024), whole);
    });
}

/// The bounds at the middle of a tick, by the quick path, by the fractions and as
/// those of a span of one place.
fn compare_middle(quick: &TickField, part: &Part, ray: &Ray, tick: u32) -> Bounds {
    let s = middle_of(tick).expect("a middle");
    let bounds = middle_bounds(part, ray, tick);
    assert_eq!(span_bounds(part, ray, &s, &s), bounds, "{tick} {ray:?}");
    assert_eq!(ExactField::new(part, *ray).middle(tick), bounds);
    assert_eq!(quick.middle(tick), bounds, "{tick} {ray:?} {part:?}");
    bounds.expect("a tree")
}

/// The middles of crossing ticks, up to 60 of a ray, and of two others. How many
/// crossing ones there were, and of how many the bounds differ.
fn compare_middles(random: &mut SplitMix64, part: &Part, ray: &Ray) -> [u32; 2] {
    let quick = TickField::new(part, *ray);
    let mut marks = [9; 1024];
    full_cast(&FileBuilder::from(part).build(), ray, 2047, &mut marks);
    let crossing = (0..1024u32).filter(|&t| marks[t as usize] == 1).take(60);
    let mut seen = [0; 2];
    for tick in crossing {
        let Bounds { low, high } = compare_middle(&quick, part, ray, tick);
        seen = [seen[0] + 1, seen[1] + u32::from(low < high)];
    }
    for _ in 0..2 {
        compare_middle(&quick, part, ray, random.between(0, 1023) as u32);
    }
    seen
}

#[test]
fn middles_of_ticks() {
    let start = |tick: u32| fraction(tick.into(), 1024);
    for tick in 0..1024 {
        let middle = middle_of(tick).expect("a middle");
        assert_eq!(&middle - &start(tick), &start(tick + 1) - &middle);
    }
}

#[test]
fn quick_middles_equal_the_fractions() {
    let mut seen = [0; 2];
    let mut add = |more: [u32; 2]| seen = [seen[0] + more[0], seen[1] + more[1]];
    for_cases(58, 60, |random, part, ray| {
        add(compare_middles(random, part, ray))
    });
    let mut random = SplitMix64::new(59);
    for i in 0..600 {
        let part = generate::cancelling_or_bored(&mut random);
        let ray = generate::ray(&mut random, &part, STYLES[i % STYLES.len()]);
        add(compare_middles(&mut random, &part, &ray));
    }
    println!("{seen:?}");
    assert!(seen[0] > 4_000 && seen[1] > 3_500, "{seen:?}");
}

/// On a ray of no length the bounds of every span and every middle, by either path,
/// are those at the one place.
#[test]
fn rays_of_no_length() {
    let mut random = SplitMix64::new(60);
    let mut different = 0;
    for i in 0..600 {
        let part = generate::part(&mut random, &SHAPES[i % SHAPES.len()]);
        let ray = generate::no_length(&mut random, &part);
        let at = place_bounds(&part, &whole_place(ray.a));
        let (exact, quick) = (ExactField::new(&part, ray), TickField::new(&part, ray));
        for (first, after) in [(0, 1024), (0, 1), (511, 512), (512, 1024), (1023, 1024)] {
            assert_eq!(exact.bounds(first, after), at, "{ray:?} {part:?}");
            assert_eq!(quick.bounds(first, after), at, "{ray:?} {part:?}");
        }
        for tick in [0, 700, 1023] {
            assert_eq!(Some(compare_middle(&quick, &part, &ray, tick)), at);
        }
        assert!(points(&part).all(|point| nearest(&ray, point).is_none()));
        different += u32::from(at.is_some_and(|at| at.low < at.high));
    }
    assert!(different > 200, "{different}");
}

/// Coordinates far outside the rules, where `i64` overflows.
#[test]
fn quick_bounds_fall_back_to_the_fractions() {
    let file = FileBuilder::new(1).point(1024, [5, 6, 7], 3).build();
    let part = read(&file).expect("accepted");
    let ray = Ray {
        a: [i32::MIN, -9, i32::MAX],
        b: [i32::MAX, 11, i32::MIN],
    };
    let field = TickField::new(&part, ray);
    for (first, after) in [(0, 1), (0, 1024), (511, 512), (512, 513), (3, 900)] {
        let slow = tick_bounds(&part, &ray, first, after);
        assert!(slow.is_some());
        assert_eq!(field.bounds(first, after), slow);
        compare_middle(&field, &part, &ray, first);
    }
}

/// A point passed between two far ends is not missed.
#[test]
fn a_point_between_the_ends() {
    let file = FileBuilder::new(1).point(1, [3, 0, 0], 7).build();
    let part = read(&file).expect("accepted");
    let ray = Ray {
        a: [-2000, 0, 0],
        b: [2000, 0, 0],
    };
    let (low, high) = (0, 7 << 32);
    let whole = tick_bounds(&part, &ray, 0, 1024);
    assert_eq!(whole, Some(Bounds { low, high }));
    let tick = tick_bounds(&part, &ray, 512, 513);
    assert_eq!(tick, Some(Bounds { low, high }));
}

/// Values worked out by hand: r 5 at distance 3 gives u 16/25.
#[test]
fn exact_values() {
    let file = FileBuilder::new(1)
        .point(5, [0, 0, 0], 625)
        .point(5, [3, 4, 0], -625)
        .point(10, [0, 0, 10], 100)
        .greater()
        .sum()
        .build();
    let part = read(&file).expect("accepted");
    let ray = Ray {
        a: [0, 3, 0],
        b: [6, 3, 0],
    };
    // At (0, 3, 0): 625 (16/25)^2 and, with d^2 10, -625 (15/25)^2 against 0.
    let field = field_on_ray(&part, &ray, 0, 9);
    assert_eq!(field, Some(Fraction::from(256)));
    // At (1, 3, 0): d^2 is 10, 5 and 110.
    let field = field_on_ray(&part, &ray, 1, 6);
    assert_eq!(field, Some(Fraction::from(225)));
    // At (1/2, 3, 0): u is 1 - 37/100.
    let field = field_on_ray(&part, &ray, 3, 36);
    assert_eq!(field, Some(fraction(625 * 63 * 63, 10_000)));
    assert_eq!(field_on_ray(&part, &ray, 1, 0), None);
    // S is 6: 625 (6/1280 + 1/16384) twice and 100 (6/2560 + 1/16384).
    let expected = &fraction(2 * 625 * 6, 1280) + &fraction(2 * 625, 16384);
    let expected = &expected + &(&fraction(600, 2560) + &fraction(100, 16384));
    assert_eq!(tolerance(&part, &ray), Some(expected));
    assert_eq!(rounding(&part), Some(fraction(2 * 625 + 100, 16384)));
}

#[test]
fn no_tree_has_no_value() {
    let place = whole_place([0; 3]);
    let part = |nodes: &[Node]| Part {
        iso: 1,
        degree: Degree::Four,
        nodes: nodes.to_vec(),
    };
    assert_eq!(field_at(&part(&[]), &place), None);
    let file = FileBuilder::new(1).point(5, [0; 3], 1).build();
    let point = read(&file).expect("accepted").nodes[0];
    assert_eq!(field_at(&part(&[point, point]), &place), None);
    let ray = Ray {
        a: [0; 3],
        b: [1, 0, 0],
    };
    for kind in OPERATORS {
        let operator = Node { kind, ..point };
        assert_eq!(place_bounds(&part(&[point, operator]), &place), None);
        let field = TickField::new(&part(&[operator]), ray);
        assert_eq!(field.bounds(0, 1), None);
    }
}
