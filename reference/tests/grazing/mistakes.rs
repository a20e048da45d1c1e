//! Five mistakes in the test that settles whether a span comes within a point's
//! radius. The grazes find each one that changes a bound of a ray. One changes no
//! bound, and gives another answer than the fractions on some of their spans. One
//! changes bounds at whole-step places alone.

use crate::guards::in_guards;
use crate::parts::{added, without, Sign};
use crate::places::{ball, small_balls};
use crate::rays::{grazes, inner, plus, Class, Graze, CENTRE, CHORDS};
use reference::cast::{full_cast_by, FullCast};
use reference::field::{middle_bounds, tick_bounds, Bounds, ExactField, Ray, SpanBounds};
use reference::fraction::Fraction;
use reference::part::{read, Node, Part};
use std::array::from_fn;

const TICKS: i128 = 1024;

/// |A - c|² - r², the inner product of A - c and B - A, and |B - A|².
struct Products {
    outer: i128,
    m: i128,
    a: i128,
}

impl Products {
    fn new(ray: &Ray, point: &Node) -> Products {
        let centre = [point.x, point.y, point.z].map(i128::from);
        let start = [0, 1, 2].map(|i| i128::from(ray.a[i]) - centre[i]);
        let way = ray.differences().map(i128::from);
        let inner = |u: [i128; 3], v: [i128; 3]| u[0] * v[0] + u[1] * v[1] + u[2] * v[2];
        let r = i128::from(point.r);
        Products {
            outer: inner(start, start) - r * r,
            m: inner(start, way),
            a: inner(way, way),
        }
    }

    /// r² - d² at the foot, in units of 1/|B - A|².
    fn at_foot(&self) -> i128 {
        self.m * self.m - self.outer * self.a
    }

    /// r² - d² at the nearer end of a span, in units of 1/1024².
    fn at_ends(&self, span: Span) -> i128 {
        let [from, to] = span.map(|t| (2 * self.m * TICKS + self.a * t) * t);
        -self.outer * TICKS * TICKS - from.min(to)
    }

    /// Whether the foot is strictly inside a span.
    fn foot_inside(&self, [first, after]: Span) -> bool {
        let foot = -self.m * TICKS;
        first * self.a < foot && foot < after * self.a
    }
}

/// The first tick of a span, and the one after its last.
type Span = [i128; 2];

/// Whether a span comes within the radius.
type ReachTest = fn(&Products, Span) -> bool;

fn right(products: &Products, span: Span) -> bool {
    products.at_ends(span) > 0 || products.foot_inside(span) && products.at_foot() > 0
}

/// Misses a ball that only places between the ends come within.
fn ends_alone(products: &Products, span: Span) -> bool {
    products.at_ends(span) > 0
}

/// Asks of the whole line, not of the span.
fn foot_anywhere(products: &Products, span: Span) -> bool {
    products.at_ends(span) > 0 || products.at_foot() > 0
}

/// Asks for d² + 1 < r², in the units of the products. It is mistaken at a foot
/// only: at an end d² would be 7 more than a multiple of 8 in these units, which no
/// sum of three squares is.
fn just_inside_is_far(products: &Products, span: Span) -> bool {
    products.at_ends(span) > 1 || products.foot_inside(span) && products.at_foot() > 1
}

fn in_reach_is_far(_: &Products, _: Span) -> bool {
    false
}

/// Takes a line at the radius as farther, which no place of it contradicts. Where the
/// ray has no length the two products compared are both 0, and all is taken as far.
fn line_at_radius_is_farther(products: &Products, span: Span) -> bool {
    products.at_foot() > 0 && right(products, span)
}

const TESTS: [ReachTest; 6] = [
    right,
    ends_alone,
    foot_anywhere,
    just_inside_is_far,
    in_reach_is_far,
    line_at_radius_is_farther,
];

/// The bounds by fractions after a test: a point that it answers as far has both
/// bounds 0, as one of weight 0 has.
fn bounds_after(test: ReachTest, part: &Part, ray: &Ray, ticks: [u32; 2]) -> Option<Bounds> {
    let far = |point: &Node| !test(&Products::new(ray, point), ticks.map(i128::from));
    tick_bounds(&without(part, far), ray, ticks[0], ticks[1])
}

/// Those after test `N` of the list.
struct Tested<const N: usize> {
    part: Part,
    ray: Ray,
}

impl<const N: usize> SpanBounds for Tested<N> {
    fn new(part: &Part, ray: Ray) -> Tested<N> {
        let part = part.clone();
        Tested { part, ray }
    }

    fn bounds(&self, first: u32, after: u32) -> Option<Bounds> {
        bounds_after(TESTS[N], &self.part, &self.ray, [first, after])
    }

    /// No full cast asks for it.
    fn middle(&self, tick: u32) -> Option<Bounds> {
        middle_bounds(&self.part, &self.ray, tick)
    }
}

type FullCastBy = fn(&[u8], &Ray, u32, &mut [u8]) -> FullCast;

const CASTS: [FullCastBy; TESTS.len()] = [
    full_cast_by::<Tested<0>>,
    full_cast_by::<Tested<1>>,
    full_cast_by::<Tested<2>>,
    full_cast_by::<Tested<3>>,
    full_cast_by::<Tested<4>>,
    full_cast_by::<Tested<5>>,
];

/// Whether the cast after each test is another than by the fractions alone.
fn differs(graze: &Graze) -> [bool; TESTS.len()] {
    let file = added(graze, Sign::Plus).build();
    let cast = |by: FullCastBy| in_guards(1024, |marks| by(&file, &graze.ray, 2047, marks));
    let exact = cast(full_cast_by::<ExactField>);
    CASTS.map(|by| cast(by) != exact)
}

/// Every seventh graze, and each chord: the casts that differ after each test.
#[test]
fn grazes_find_each_mistake_that_changes_a_cast() {
    let all = grazes().into_iter().enumerate();
    let some = all.filter(|(i, graze)| i % 7 == 0 || graze.class == Class::Chord);
    let mut found = [0; TESTS.len()];
    let mut within = 0;
    for (_, graze) in some {
        let differs = differs(&graze);
        assert_eq!(differs[4], graze.within, "{graze:?}");
        found = from_fn(|i| found[i] + usize::from(differs[i]));
        within += usize::from(graze.within);
    }
    println!("{found:?} of {within}");
    let [right, ends_alone, foot_anywhere, just_inside_is_far, in_reach_is_far, line] = found;
    assert_eq!([right, foot_anywhere, line], [0; 3]);
    assert!(ends_alone > 100, "{found:?}");
    // the shortest ray of each line, in both directions
    assert_eq!(just_inside_is_far, 2 * CHORDS.len());
    assert!(in_reach_is_far == within && within > 200, "{found:?}");
}

/// The whole ray, its halves, quarters and eighths, and some ticks.
fn spans() -> impl Iterator<Item = [u32; 2]> {
    let part = |length: u32| (0..1024 / length).map(move |i| [i * length, (i + 1) * length]);
    let ticks = [0, 1, 340, 341, 383, 384, 511, 512, 877, 1023].map(|tick| [tick, tick + 1]);
    let parts = [1024, 512, 256, 128].into_iter().flat_map(part);
    parts.chain(ticks)
}

/// The answers that are yes in place of no, and no in place of yes, of each test
/// on the spans of a graze.
fn mistaken(graze: &Graze) -> [[u32; 2]; TESTS.len()] {
    let products = Products::new(&graze.ray, &graze.ball(1));
    spans().fold([[0; 2]; TESTS.len()], |counts, span| {
        let right = graze.greatest_u(span) > Fraction::zero();
        let answers = TESTS.map(|test| test(&products, span.map(i128::from)));
        from_fn(|i| {
            let [yes, no] = counts[i];
            let (wrong_yes, wrong_no) = (answers[i] && !right, !answers[i] && right);
            [yes + u32::from(wrong_yes), no + u32::from(wrong_no)]
        })
    })
}

/// The right test answers as the fractions do, and so does the line at the radius
/// taken as farther. The foot that counts anywhere gives yes in place of no on some
/// spans, the other mistakes no in place of yes.
#[test]
fn answers_on_the_spans_of_the_grazes() {
    let mut counts = [[0; 2]; TESTS.len()];
    for graze in grazes() {
        let more = mistaken(&graze);
        counts = from_fn(|i| [0, 1].map(|j| counts[i][j] + more[i][j]));
    }
    println!("{counts:?}");
    let [right, ends_alone, foot_anywhere, just_inside_is_far, in_reach_is_far, line] = counts;
    assert_eq!([right, line], [[0; 2]; 2]);
    let [yes, no] = foot_anywhere;
    assert!(yes > 1000 && no == 0, "{counts:?}");
    for mistake in [ends_alone, just_inside_is_far, in_reach_is_far] {
        let [yes, no] = mistake;
        assert!(yes == 0 && no > 50, "{counts:?}");
    }
}

/// The bounds at a place are those of the ray from it to itself. Two of the tests
/// take every such ray as far: they change the bounds at each place within a ball
/// and at no other. The rest change none.
#[test]
fn places_find_the_line_at_the_radius_taken_as_farther() {
    for (r, place) in small_balls() {
        let part = read(&ball(r, 4096).build()).expect("an accepted file");
        let at = plus(CENTRE, place);
        let ray = Ray { a: at, b: at };
        let exact = tick_bounds(&part, &ray, 0, 0);
        let differs = TESTS.map(|test| bounds_after(test, &part, &ray, [0, 0]) != exact);
        let within = inner(place, place) < r * r;
        let expected = [false, false, false, false, within, within];
        assert_eq!(differs, expected, "{r} {place:?}");
    }
}
