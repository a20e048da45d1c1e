//! Lesser and cut: places and rays worked out by hand, trees with all four
//! operators at their limits, and refusals, each asked of the archive, which is
//! compared with the exact fractions, and of the place and the ray lister.

#[path = "exact_calls/calls.rs"]
mod calls;
mod common;
#[path = "common/entries.rs"]
mod entries;
#[path = "common/guards.rs"]
mod guards;
#[path = "common/worked.rs"]
mod worked;

use calls::{check, place_bounds, Host};
use common::printed;
use reference::cast::{Column, FirstHit, FullCast};
use reference::field::{field_on_ray, Bounds, Ray};
use reference::fraction::Fraction;
use reference::lister::{input, list};
use reference::part::{operator_record, read, FileBuilder, Kind, OPERATORS, RECORD};
use reference::view::{in_millimetres, ViewerHit};
use worked::{at_y, file_k, AXIS};

/// 1 in the units of bounds.
const ONE: i64 = 4_294_967_296;

/// The bounds at a place, low and high.
fn bounds(builder: &FileBuilder, at: [i16; 3]) -> (i64, i64) {
    let file = builder.build();
    let answer = place_bounds(&file, at.map(i32::from));
    let Bounds { low, high } = answer.expect("an accepted file");
    let mut input: Vec<u8> = at.iter().flat_map(|c| c.to_le_bytes()).collect();
    input.extend(file);
    let text = printed("placelist", &input, input.len());
    assert_eq!(text, format!("bounds {low} {high}\n"));
    (low, high)
}

/// All casting calls on a ray; the runs of marks as the ray lister prints them.
fn runs(builder: &FileBuilder, ray: &Ray) -> String {
    let file = builder.build();
    let mut host = Host::default();
    for budget in [0, 1, 14, 30, 2052] {
        host.full_cast(&file, ray, budget, 1024);
        host.marching_cast(&file, ray, budget, 1024);
        host.first_hit(&file, ray, budget);
        host.viewer_first_hit(&file, &in_millimetres(ray), budget);
    }
    host.column(&file, ray, 128);
    let input = input(ray, 2047, &file);
    let text = printed("raylist", &input, input.len());
    assert_eq!(text, list(&input));
    let (runs, _) = text.split_once("probes").expect("the probes");
    runs.trim_end().replace('\n', ", ")
}

/// The points of `points`, then the operators of `kinds`.
fn joined(iso: u16, points: &[(u16, i16, i16)], kinds: &[Kind]) -> FileBuilder {
    let builder = points.iter().fold(FileBuilder::new(iso), |b, &(r, x, w)| {
        b.point(r, [x, 0, 0], w)
    });
    kinds.iter().fold(builder, |b, &kind| b.operator(kind))
}

/// Two points of r 512: w 4 at x = 0 and w 8 at x = 256. At a distance of 256 u
/// is 3/4 and u^2 9/16, so the fields are 4 and 9/2 at x = 0, 9/4 and 8 at
/// x = 256. Both are units of 1/4 and bounds are equal.
#[test]
fn places_of_two_points() {
    let (first, second) = ((512, 0, 4), (512, 256, 8));
    let quarters = |iso, points: [(u16, i16, i16); 2], kind| {
        [0, 256].map(|x| {
            let (low, high) = bounds(&joined(iso, &points, &[kind]), [x, 0, 0]);
            assert_eq!((low, low % (ONE / 4)), (high, 0));
            low / (ONE / 4)
        })
    };
    for (iso, points) in [(1, [first, second]), (4096, [second, first])] {
        assert_eq!(quarters(iso, points, Kind::Lesser), [16, 9]);
        assert_eq!(quarters(iso, points, Kind::Greater), [18, 32]);
    }
    // 2 - 9/2 is less than 4, and 2 - 8 than 9/4.
    assert_eq!(quarters(1, [first, second], Kind::Cut), [-10, -24]);
    // 2 - 4 is less than 9/2, and 2 - 9/4 than 8.
    assert_eq!(quarters(1, [second, first], Kind::Cut), [-8, -1]);
    // 8192 less either field is greater than both.
    assert_eq!(quarters(4096, [first, second], Kind::Cut), [16, 9]);
    assert_eq!(quarters(4096, [second, first], Kind::Cut), [18, 32]);
    // 4 less 9/2, and 4 less 8, with iso 2.
    assert_eq!(quarters(2, [first, second], Kind::Cut), [-2, -16]);
}

/// Points of r 5, w 625 at (0, 0, 0) and w 625 or -625 at (3, 4, 0). At (0, 3, 0)
/// d^2 is 9 and 10, u 16/25 and 15/25, the fields 256 and 225. At (1/2, 3, 0) d^2
/// is 37/4 and 29/4, u 63/100 and 71/100, the fields 3969/16 and 5041/16.
#[test]
fn exact_fields() {
    let ray = Ray {
        a: [0, 3, 0],
        b: [6, 3, 0],
    };
    let sixteenths = |weights: [i16; 2], kind, n| {
        let [first, second] = weights;
        let one = FileBuilder::new(1).point(5, [0; 3], first);
        let file = one.point(5, [3, 4, 0], second).operator(kind).build();
        let part = read(&file).expect("an accepted file");
        let field = field_on_ray(&part, &ray, n, 12).expect("a tree");
        &field * &Fraction::from(16)
    };
    let both = |weights, kind| [0, 1].map(|n| sixteenths(weights, kind, n));
    let whole = |numbers: [i64; 2]| numbers.map(Fraction::from);
    let (solid, hollow) = ([625, 625], [625, -625]);
    assert_eq!(both(solid, Kind::Lesser), whole([16 * 225, 3969]));
    assert_eq!(both(hollow, Kind::Lesser), whole([-16 * 225, -5041]));
    // 2 less 225, and less 5041/16
    assert_eq!(both(solid, Kind::Cut), whole([-16 * 223, 32 - 5041]));
    // 2 more than 225 is less than 256; 2 more than 5041/16 is not the lesser
    assert_eq!(both(hollow, Kind::Cut), whole([16 * 227, 3969]));
    // of -256 and 2 less 225, of -3969/16 and 2 less 5041/16
    assert_eq!(both([-625, 625], Kind::Cut), whole([-16 * 256, 32 - 5041]));
}

/// At (1, 0, 0) a point of r 512 has q 65,535 and 65,536, one of r 3 has 58,254
/// and 58,255, so that with w 4 and w 1 the bounds are 4 x 65,535^2 =
/// 17,179,344,900 and 4 x 65,536^2 = 17,179,869,184, and 58,254^2 =
/// 3,393,528,516 and 58,255^2 = 3,393,645,025. Twice iso is 8,589,934,592.
#[test]
fn bounds_of_the_later_operand_change_ends() {
    let wide = (512, 0, 4);
    let place =
        |points: [(u16, i16, i16); 2], kind| bounds(&joined(1, &points, &[kind]), [1, 0, 0]);
    let (low, high) = (3_393_528_516, 3_393_645_025);
    let (near, far) = ((3, 0, 1), (3, 0, -1));
    assert_eq!(place([wide, near], Kind::Lesser), (low, high));
    assert_eq!(place([near, wide], Kind::Lesser), (low, high));
    assert_eq!(place([wide, far], Kind::Lesser), (-high, -low));
    // 8,589,934,592 less 3,393,645,025, and less 3,393,528,516
    let cut = (5_196_289_567, 5_196_406_076);
    assert_eq!(place([wide, near], Kind::Cut), cut);
    // the same less the negative bounds
    let cut = (11_983_463_108, 11_983_579_617);
    assert_eq!(place([wide, far], Kind::Cut), cut);
    // 8,589,934,592 less 17,179,869,184, and less 17,179,344,900
    let cut = (-8_589_934_592, -8_589_410_308);
    assert_eq!(place([near, wide], Kind::Cut), cut);
    assert_eq!(place([far, wide], Kind::Cut), cut);
    let (low, high) = (17_179_344_900, 17_179_869_184);
    let large = joined(4096, &[wide, near], &[Kind::Cut]);
    assert_eq!(bounds(&large, [1, 0, 0]), (low, high));
}

/// A point that has just iso at its centre, cut by itself, has it still; with
/// iso 4,096 the largest weight.
#[test]
fn a_field_equal_to_iso_cut_by_itself() {
    for iso in [1, 4096] {
        let solid = (512, 0, iso as i16);
        let both = iso as i64 * ONE;
        let itself = joined(iso, &[solid; 2], &[Kind::Cut]);
        assert_eq!(bounds(&itself, [0; 3]), (both, both));
        let hollow = (512, 0, -(iso as i16));
        let opposite = joined(iso, &[solid, hollow], &[Kind::Cut]);
        assert_eq!(bounds(&opposite, [0; 3]), (both, both));
        let twice = joined(iso, &[solid; 3], &[Kind::Sum, Kind::Cut]);
        assert_eq!(bounds(&twice, [0; 3]), (0, 0));
    }
}

/// With iso 1 a point of w 4 is solid where u is at least 1/2: within 362.04 for
/// r 512, 90.51 for r 128, 22.63 for r 32. The axis ray's tick t begins at
/// x = 2t - 1024, so these surfaces are met in the ticks 330 and 693, 466 and
/// 557, 500 and 523.
const BALL: (u16, i16, i16) = (512, 0, 4);
const BORE: (u16, i16, i16) = (128, 0, 4);
const PLUG: (u16, i16, i16) = (32, 0, 4);
const NONE: &str = "empty 0 1024";

#[test]
fn rays_through_a_bore() {
    let all = "empty 0 330, crossing 330 331, inside 331 693, crossing 693 694, empty 694 1024";
    let ring = "empty 0 330, crossing 330 331, inside 331 466, crossing 466 467, \
        empty 467 557, crossing 557 558, inside 558 693, crossing 693 694, empty 694 1024";
    let core = "empty 0 466, crossing 466 467, inside 467 557, crossing 557 558, empty 558 1024";
    let axis = |points: [(u16, i16, i16); 2], kind| runs(&joined(1, &points, &[kind]), &AXIS);
    assert_eq!(axis([BALL, BORE], Kind::Cut), ring);
    assert_eq!(axis([BORE, BALL], Kind::Cut), NONE);
    assert_eq!(axis([BALL, BORE], Kind::Lesser), core);
    assert_eq!(axis([BORE, BALL], Kind::Lesser), core);
    assert_eq!(axis([BALL, BORE], Kind::Greater), all);
    assert_eq!(joined(1, &[BALL], &[]).build(), file_k());
    // a negative weight removes nothing, and leaves nothing of a lesser
    let hollow = (128, 0, -4);
    assert_eq!(axis([BALL, hollow], Kind::Cut), all);
    assert_eq!(axis([hollow, BALL], Kind::Cut), NONE);
    assert_eq!(axis([BALL, hollow], Kind::Lesser), NONE);
}

/// The second ball is solid from x = 256 - 362.04 = -106.04 on, which is in tick
/// 458, or up to 106.04 if it lies at x = -256, which is in tick 565.
#[test]
fn rays_through_an_overlap() {
    let right = joined(1, &[BALL, (512, 256, 4)], &[Kind::Lesser]);
    let overlap = "empty 0 458, crossing 458 459, inside 459 693, crossing 693 694, empty 694 1024";
    assert_eq!(runs(&right, &AXIS), overlap);
    let left = joined(1, &[BALL, (512, -256, 4)], &[Kind::Cut]);
    let rest = "empty 0 565, crossing 565 566, inside 566 693, crossing 693 694, empty 694 1024";
    assert_eq!(runs(&left, &AXIS), rest);
    for y in [-90, 89, 91, 362, 512] {
        runs(&right, &at_y(y));
        runs(&left, &at_y(y));
    }
}

/// At the centre all three fields are 4. The bore cut by the plug has -2 there,
/// and the ball cut by that 4; the ball cut by the bore has -2, and that cut by
/// the plug too.
#[test]
fn a_cut_of_a_cut() {
    let three = [BALL, BORE, PLUG];
    let by_a_cut = joined(1, &three, &[Kind::Cut; 2]);
    assert_eq!(bounds(&by_a_cut, [0; 3]), (4 * ONE, 4 * ONE));
    let standing = "empty 0 330, crossing 330 331, inside 331 466, crossing 466 467, \
        empty 467 500, crossing 500 501, inside 501 523, crossing 523 524, \
        empty 524 557, crossing 557 558, inside 558 693, crossing 693 694, empty 694 1024";
    assert_eq!(runs(&by_a_cut, &AXIS), standing);
    let two = joined(1, &three[..2], &[Kind::Cut]);
    let of_a_cut = two.clone().point(32, [0; 3], 4).cut();
    assert_eq!(bounds(&of_a_cut, [0; 3]), (-2 * ONE, -2 * ONE));
    assert_eq!(runs(&of_a_cut, &AXIS), runs(&two, &AXIS));
}

/// At the centre the ball cut by the bore has -2; with another ball added 2, and
/// the lesser of it and the plug, 4, is -2.
#[test]
fn a_cut_inside_a_sum_and_a_lesser() {
    let ring = joined(1, &[BALL, BORE], &[Kind::Cut]);
    let sum = ring.clone().point(512, [0; 3], 4).sum();
    assert_eq!(bounds(&sum, [0; 3]), (2 * ONE, 2 * ONE));
    let later = joined(1, &[BALL, BALL, BORE], &[Kind::Cut, Kind::Sum]);
    assert_eq!(bounds(&later, [0; 3]), (2 * ONE, 2 * ONE));
    assert_eq!(runs(&later, &AXIS), runs(&sum, &AXIS));
    let lesser = ring.point(32, [0; 3], 4).lesser();
    assert_eq!(bounds(&lesser, [0; 3]), (-2 * ONE, -2 * ONE));
    assert_eq!(runs(&lesser, &AXIS), NONE);
}

/// Two points of w 4,096 have 8,192 u^2, which is at least iso 4,096 where u is
/// at least 0.7071: within 277.09 for r 512, 69.27 for r 128, met in the ticks
/// 373 and 650, 477 and 546.
#[test]
fn a_bore_at_the_largest_iso_value() {
    let two = |b: FileBuilder, r| b.point(r, [0; 3], 4096).point(r, [0; 3], 4096).sum();
    let both = two(two(FileBuilder::new(4096), 512), 128);
    let ring = "empty 0 373, crossing 373 374, inside 374 477, crossing 477 478, \
        empty 478 546, crossing 546 547, inside 547 650, crossing 650 651, empty 651 1024";
    assert_eq!(runs(&both.clone().cut(), &AXIS), ring);
    let core = "empty 0 477, crossing 477 478, inside 478 546, crossing 546 547, empty 547 1024";
    assert_eq!(runs(&both.lesser(), &AXIS), core);
}

/// 64 values held, joined by the four operators in turn from one of them on.
fn wide_tree(iso: u16, first: usize) -> FileBuilder {
    let point = |b: FileBuilder, i: i16| b.point(1024 - i as u16, [i, -2 * i, 3], 60 - i);
    let held = (0..64).fold(FileBuilder::new(iso), point);
    let kinds = OPERATORS.iter().cycle().skip(first).take(63);
    kinds.fold(held, |b, &kind| b.operator(kind))
}

/// Bounds at three places, and casts on three rays.
fn ask(builder: &FileBuilder) {
    for (at, y) in [([0; 3], 0), ([-300, 200, 5], 400), ([1, 1023, -2], 900)] {
        bounds(builder, at);
        runs(builder, &at_y(y));
    }
}

#[test]
fn a_wide_tree_of_all_operators() {
    for (iso, first) in [(1, 0), (1, 1), (2, 2), (5, 3), (30, 0), (30, 2), (4096, 1)] {
        let wide = wide_tree(iso, first);
        assert_eq!(check(&wide.build()), Ok((127, u32::from(iso))));
        ask(&wide);
    }
}

/// A tree of points of r 1,024 at one place, where each has its weight, so that
/// the tree's value there follows from the weights alone; iso is 4,096.
struct AtOnePlace {
    builder: FileBuilder,
    held: Vec<i64>,
}

impl AtOnePlace {
    fn new() -> AtOnePlace {
        AtOnePlace {
            builder: FileBuilder::new(4096),
            held: Vec::new(),
        }
    }

    fn point(mut self, w: i16) -> AtOnePlace {
        self.held.push(i64::from(w));
        self.builder = self.builder.point(1024, [0; 3], w);
        self
    }

    fn join(mut self, kind: Kind) -> AtOnePlace {
        let later = self.held.pop().expect("a later operand");
        let earlier = self.held.pop().expect("an earlier operand");
        self.held.push(match kind {
            Kind::Greater => earlier.max(later),
            Kind::Lesser => earlier.min(later),
            Kind::Cut => earlier.min(8192 - later),
            _ => earlier + later,
        });
        self.builder = self.builder.operator(kind);
        self
    }

    /// The sum of this many points.
    fn sum(self, points: u32, w: i16) -> AtOnePlace {
        let one = self.point(w);
        (1..points).fold(one, |tree, _| tree.point(w).join(Kind::Sum))
    }

    /// The tree has 511 nodes and its value.
    fn assert_largest(&self) -> i64 {
        let value = self.held[0];
        assert_eq!(check(&self.builder.build()), Ok((511, 4096)));
        let both = value * ONE;
        assert_eq!(bounds(&self.builder, [0; 3]), (both, both));
        ask(&self.builder);
        value
    }
}

#[test]
fn the_largest_sums_cut() {
    for w in [4096, -4096] {
        let sum = AtOnePlace::new().sum(256, w);
        assert_eq!(sum.assert_largest(), 256 * i64::from(w));
        // 8,192 less 255 x 4,096 is the lesser
        let by_solid = AtOnePlace::new().point(w).sum(255, 4096).join(Kind::Cut);
        assert_eq!(by_solid.assert_largest(), -1_036_288);
        // 8,192 more than 255 x 4,096 is not
        let by_hollow = AtOnePlace::new().point(w).sum(255, -4096).join(Kind::Cut);
        assert_eq!(by_hollow.assert_largest(), i64::from(w));
    }
    // 128 x 4,096, or 8,192 more than 128 x 4,096, or less it
    let half = |w| AtOnePlace::new().sum(128, 4096).sum(128, w).join(Kind::Cut);
    assert_eq!(half(-4096).assert_largest(), 524_288);
    assert_eq!(half(4096).assert_largest(), -516_096);
}

/// Points of two weights in turn, joined one by one to all before them by four
/// operators in turn.
fn chain([even, odd]: [i16; 2], kinds: [Kind; 4]) -> AtOnePlace {
    let one = AtOnePlace::new().point(even);
    (1..256).fold(one, |tree, i| {
        let w = if i % 2 == 0 { even } else { odd };
        tree.point(w).join(kinds[i % 4])
    })
}

#[test]
fn cuts_between_sums() {
    let three_sums = [Kind::Sum, Kind::Sum, Kind::Sum, Kind::Cut];
    for weights in [[4096; 2], [4096, -4096], [-4096, 4096], [-4096; 2]] {
        chain(weights, three_sums).assert_largest();
        chain(weights, OPERATORS).assert_largest();
    }
}

/// Every call refuses the file with the number.
fn assert_refused(builder: &FileBuilder, number: u32) {
    let file = builder.build();
    let mut host = Host::default();
    assert_eq!(check(&file), Err(number));
    assert_eq!(place_bounds(&file, [0; 3]), Err(number));
    let (cast, _) = host.full_cast(&file, &AXIS, 2047, 1024);
    assert_eq!(cast, FullCast::Refused(number));
    let (cast, _) = host.marching_cast(&file, &AXIS, 2052, 1024);
    assert_eq!(cast, FullCast::Refused(number));
    assert_eq!(host.column(&file, &AXIS, 128), Column::Refused(number));
    let hit = host.first_hit(&file, &AXIS, 2047);
    assert_eq!(hit, FirstHit::Refused(number));
    let hit = host.viewer_first_hit(&file, &in_millimetres(&AXIS), 2047);
    assert_eq!(hit, ViewerHit::Refused(number));
    let text = printed("partlist", &file, file.len());
    assert_eq!(text, format!("refused {number}\n"));
}

#[test]
fn refused_kinds() {
    let two = joined(1, &[BALL, BORE], &[]);
    for kind in (0..=0).chain(6..=255) {
        assert_refused(&two.clone().raw(operator_record(kind)), 6);
    }
}

#[test]
fn operators_without_two_values() {
    for kind in OPERATORS {
        assert_refused(&joined(1, &[], &[kind]), 9);
        assert_refused(&joined(1, &[BALL], &[kind]), 9);
        assert_refused(&joined(1, &[BALL, BORE], &[kind; 2]), 9);
    }
}

/// One byte of an operator that is not zero, after two points and alone.
fn assert_zero_bytes(kind: Kind) {
    for at in 1..RECORD {
        let mut record = operator_record(kind as u8);
        record[at] = 1;
        assert_refused(&joined(1, &[BALL, BORE], &[]).raw(record), 7);
        assert_refused(&joined(1, &[], &[]).raw(record), 7);
    }
}

#[test]
fn operators_with_a_byte_that_is_not_zero() {
    OPERATORS.into_iter().for_each(assert_zero_bytes);
}
