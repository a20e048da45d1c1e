//! The marks against the exact field at fractional places: empty means below
//! iso, inside means at least iso, crossing means within the tolerance. And a
//! column's bits against the exact field at the middles of ticks: solid means at
//! least iso, the others below iso, but for the rounding.

use reference::cast::{column, first_hit, full_cast, FirstHit, FullCast};
use reference::field::{field_at, field_on_ray, nearest, rounding, tolerance, Ray};
use reference::fraction::Fraction;
use reference::generate::{self, Shape, SplitMix64, Style, OVERLAPPING, STYLES};
use reference::march::marching_cast;
use reference::part::{FileBuilder, Kind, Node, Part};

/// One ray of one part with the marks of a full cast and a marching cast: those of
/// the one that looked at more ticks; and with the bits of a column.
struct Case {
    part: Part,
    ray: Ray,
    marks: [u8; 1024],
    looked_at: u32,
    bits: [u8; 128],
    tolerance: Fraction,
    rounding: Fraction,
    seen: [u64; 3],
    /// Crossing ticks by their bits, and those whose bit is not the one that the
    /// exact field alone would give.
    crossing: [u64; 3],
}

fn fraction(num: i128, den: i128) -> Fraction {
    Fraction::new(num, den).expect("denominator not 0")
}

/// A full cast or a marching cast.
type Cast = fn(&[u8], &Ray, u32, &mut [u8]) -> FullCast;

/// How many ticks a cast looks at, and its marks.
fn looked_at(cast: Cast, file: &[u8], ray: &Ray, budget: u32) -> (u32, [u8; 1024]) {
    let mut marks = [9; 1024];
    let looked_at = match cast(file, ray, budget, &mut marks) {
        FullCast::Complete { .. } => 1024,
        FullCast::Spent { tick, .. } => tick,
        FullCast::Refused(number) => panic!("refused {number}"),
    };
    assert!(marks[looked_at as usize..].iter().all(|&m| m == 3));
    (looked_at, marks)
}

impl Case {
    fn new(part: Part, ray: Ray, budget: u32) -> Case {
        let file = FileBuilder::from(&part).build();
        let casts: [Cast; 2] = [full_cast, marching_cast];
        let mut casts = casts.map(|cast| looked_at(cast, &file, &ray, budget));
        casts.sort_by_key(|(looked_at, _)| *looked_at);
        let [(fewer, first), (looked_at, marks)] = casts;
        assert_eq!(first[..fewer as usize], marks[..fewer as usize]);
        let mut bits = [9; 128];
        assert!(column(&file, &ray, &mut bits).probes().is_some());
        let tolerance = tolerance(&part, &ray).expect("a tree").reduced();
        let rounding = rounding(&part).expect("a tree").reduced();
        Case {
            part,
            ray,
            marks,
            looked_at,
            bits,
            tolerance,
            rounding,
            seen: [0; 3],
            crossing: [0; 3],
        }
    }

    /// Checks the mark of tick t at the place s, which the tick holds.
    fn check_place(&mut self, t: u32, s: &Fraction) {
        assert!(fraction(t.into(), 1024) <= *s && *s <= fraction((t + 1).into(), 1024));
        let field = field_at(&self.part, &self.ray.place(s)).expect("a tree");
        let iso = Fraction::from(i64::from(self.part.iso));
        let mark = self.marks[t as usize];
        let right = match mark {
            0 => field < iso,
            1 => (&field - &iso).abs() <= self.tolerance,
            2 => field >= iso,
            _ => false,
        };
        assert!(
            right,
            "mark {mark}, tick {t}, place {s}, field {field}, {:?}, {:?}",
            self.ray, self.part
        );
        self.seen[mark as usize] += 1;
    }

    /// Checks the bit of tick t at its middle: of a solid tick the field there is
    /// at least iso minus the rounding, of another it is below iso plus the rounding.
    fn check_bit(&mut self, t: u32) {
        let (n, mark) = (i64::from(2 * t + 1), self.marks[t as usize]);
        let field = field_on_ray(&self.part, &self.ray, n, 2048).expect("a tree");
        let iso = Fraction::from(i64::from(self.part.iso));
        let solid = self.bits[t as usize / 8] >> (t % 8) & 1 == 1;
        let right = match solid {
            true => &field + &self.rounding >= iso,
            false => field < &iso + &self.rounding,
        };
        let (ray, part) = (&self.ray, &self.part);
        assert!(
            right,
            "solid {solid}, tick {t}, field {field}, {ray:?}, {part:?}"
        );
        match mark {
            1 => {
                self.crossing[usize::from(solid)] += 1;
                self.crossing[2] += u64::from(solid != (field >= iso));
            }
            // a budget that ran out leaves other ticks unmarked
            0 | 2 => assert_eq!(solid, mark == 2, "tick {t}, {ray:?}, {part:?}"),
            _ => {}
        }
    }

    /// The place n/m with the least n that tick t holds, if there is one.
    fn check_with_denominator(&mut self, t: u32, m: i128) {
        let t_wide = i128::from(t);
        let n = (t_wide * m + 1023) / 1024;
        if 1024 * n <= (t_wide + 1) * m {
            self.check_place(t, &fraction(n, m));
        }
    }

    /// The ends and the middle, and places with odd denominators.
    fn check_tick(&mut self, t: u32, odd: &[i128]) {
        let t_wide = i128::from(t);
        self.check_place(t, &fraction(t_wide, 1024));
        self.check_place(t, &fraction(2 * t_wide + 1, 2048));
        self.check_place(t, &fraction(t_wide + 1, 1024));
        for &m in odd {
            self.check_with_denominator(t, m);
        }
    }

    /// Places spread over the ticks next to a change of mark.
    fn check_changes(&mut self) {
        for t in 0..self.looked_at {
            let mark = |t: u32| self.marks.get(t as usize);
            let same = mark(t) == mark(t + 1) && mark(t) == mark(t.saturating_sub(1));
            if same && self.marks[t as usize] != 1 {
                continue;
            }
            for k in 1..13 {
                self.check_place(t, &fraction(13 * i128::from(t) + k, 13 * 1024));
            }
        }
    }

    /// The place nearest each centre, where a tick looked at holds it.
    fn check_nearest(&mut self) {
        let points: Vec<Node> = self.part.nodes.clone();
        for point in points.iter().filter(|n| n.kind == Kind::Point) {
            let s = nearest(&self.ray, point).expect("ends differ");
            let tick = (&s * &Fraction::from(1024))
                .floor()
                .to_i128()
                .expect("fits");
            for t in [tick - 1, tick] {
                let holds = s <= fraction(t + 1, 1024);
                if t >= 0 && t < i128::from(self.looked_at) && holds {
                    self.check_place(t as u32, &s);
                }
            }
        }
    }

    fn check_all(&mut self, stride: u32, odd: &[i128]) {
        for t in (0..self.looked_at).filter(|t| t % stride == 0) {
            self.check_tick(t, odd);
        }
        let marks = self.marks;
        let crossing = |t: &u32| marks[*t as usize] == 1;
        for t in (0..1024).filter(|t| t % stride == 0 || crossing(t)) {
            self.check_bit(t);
        }
        self.check_changes();
        self.check_nearest();
    }
}

/// What was seen.
#[derive(Debug, Default)]
struct Seen {
    /// The places with each mark: in all parts, in those with a lesser and in those
    /// with a cut.
    places: [[u64; 3]; 3],
    /// As of a case.
    crossing: [u64; 3],
}

impl Seen {
    fn add(&mut self, case: &Case) {
        let has = |kind| case.part.nodes.iter().any(|node| node.kind == kind);
        let counts = [true, has(Kind::Lesser), has(Kind::Cut)];
        for (places, _) in self.places.iter_mut().zip(counts).filter(|(_, c)| *c) {
            *places = [0, 1, 2].map(|mark| places[mark] + case.seen[mark]);
        }
        self.crossing = [0, 1, 2].map(|i| self.crossing[i] + case.crossing[i]);
    }

    /// Each mark has more places than these: in all parts, and in those with a
    /// lesser as in those with a cut.
    fn assert_more(&self, in_all: u64, with_either: u64) -> &Seen {
        println!("{self:?}");
        let least = [in_all, with_either, with_either];
        for (places, least) in self.places.iter().zip(least) {
            assert!(places.iter().all(|&n| n > least), "{self:?}");
        }
        self
    }

    /// More crossing ticks than so many are solid, and more are not.
    fn assert_bits(&self, least: u64) {
        assert!(self.crossing[..2].iter().all(|&n| n > least), "{self:?}");
    }
}

/// Runs `count` rays of each style on parts of one shape.
fn run(seed: u64, shape: &Shape, count: usize, stride: u32) -> Seen {
    let mut random = SplitMix64::new(seed);
    let mut seen = Seen::default();
    for style in STYLES {
        for _ in 0..count {
            let part = generate::part(&mut random, shape);
            let ray = generate::ray(&mut random, &part, style);
            let budget = random.pick(&[2052, 2052, u32::MAX, 12, 30]);
            let odd = [7 * 1024 + 1, 7 * 1024, random.between(1, 9999).into()];
            let mut case = Case::new(part, ray, budget);
            case.check_all(stride, &odd);
            seen.add(&case);
        }
    }
    seen
}

#[test]
fn few_points() {
    let shape = Shape {
        points: (1, 4),
        reach: 500,
        radius: (100, 1024),
        weight: (-6, 30),
        iso: (1, 6),
    };
    run(231, &shape, 120, 1)
        .assert_more(10_000, 200)
        .assert_bits(100);
}

#[test]
fn overlapping_points() {
    run(39, &OVERLAPPING, 250, 32)
        .assert_more(8_000, 1_500)
        .assert_bits(300);
}

#[test]
fn small_radii() {
    let shape = Shape {
        points: (1, 5),
        reach: 12,
        radius: (1, 20),
        weight: (-9, 40),
        iso: (1, 5),
    };
    run(32, &shape, 70, 1)
        .assert_more(2_000, 100)
        .assert_bits(50);
}

#[test]
fn large_weights() {
    let shape = Shape {
        points: (1, 3),
        reach: 300,
        radius: (200, 1024),
        weight: (-4096, 4096),
        iso: (1, 900),
    };
    run(33, &shape, 240, 8)
        .assert_more(1_000, 50)
        .assert_bits(30);
}

#[test]
fn deep_trees() {
    let shape = Shape {
        points: (8, 40),
        reach: 900,
        radius: (50, 700),
        weight: (-5, 12),
        iso: (1, 5),
    };
    run(34, &shape, 20, 4).assert_more(500, 200).assert_bits(20);
}

#[test]
fn single_points_near_the_surface() {
    let mut random = SplitMix64::new(35);
    let shape = Shape {
        points: (1, 1),
        reach: 900,
        radius: (1, 1024),
        weight: (1, 60),
        iso: (1, 20),
    };
    for i in 0..200 {
        let part = generate::part(&mut random, &shape);
        let style = [Style::OneStep, Style::Grazing][i % 2];
        let ray = generate::ray(&mut random, &part, style);
        let mut case = Case::new(part, ray, 2052);
        case.check_all(1, &[7 * 1024 + 5]);
    }
}

/// Runs a ray on each of `count` parts.
fn run_drawn(seed: u64, count: usize, part: fn(&mut SplitMix64) -> Part) -> Seen {
    let mut random = SplitMix64::new(seed);
    let mut seen = Seen::default();
    for i in 0..count {
        let part = part(&mut random);
        let ray = generate::ray(&mut random, &part, STYLES[i % STYLES.len()]);
        let mut case = Case::new(part, ray, 2052);
        case.check_all(3, &[7 * 1024 + 1]);
        seen.add(&case);
    }
    seen
}

#[test]
fn cancelling_points() {
    let seen = run_drawn(37, 120, generate::cancelling);
    let [all, _, cut] = seen.places;
    assert!(all.iter().all(|&n| n > 5_000), "{all:?}");
    assert!(cut.iter().all(|&n| n > 1_000), "{cut:?}");
    seen.assert_bits(1_000);
}

#[test]
fn bored_parts() {
    run_drawn(38, 120, generate::bored)
        .assert_more(1_500, 1_500)
        .assert_bits(50);
}

/// The bits of crossing ticks on rays of each style through parts of many kinds. The
/// rounding settles some of them, where the field is next to iso.
#[test]
fn bits_at_middles() {
    let mut random = SplitMix64::new(61);
    let mut seen = Seen::default();
    for i in 0..4_000 {
        let part = match i % 4 {
            0 => generate::part(&mut random, &OVERLAPPING),
            1 => generate::bored(&mut random),
            _ => generate::cancelling(&mut random),
        };
        let ray = generate::ray(&mut random, &part, STYLES[i / 4 % STYLES.len()]);
        let mut case = Case::new(part, ray, 2052);
        let crossing = (0..1024).filter(|&t| case.marks[t as usize] == 1);
        for t in crossing.collect::<Vec<u32>>() {
            case.check_bit(t);
        }
        seen.add(&case);
    }
    println!("{:?}", seen.crossing);
    seen.assert_bits(20_000);
    assert!(seen.crossing[2] > 100, "{seen:?}");
}

/// A first hit claims the same of the field as the full cast, and a column of the
/// ticks that are decided.
#[test]
fn hits_and_columns_hand_over_the_same_marks() {
    let mut random = SplitMix64::new(36);
    let shape = Shape {
        points: (1, 6),
        reach: 600,
        radius: (50, 900),
        weight: (-6, 30),
        iso: (1, 4),
    };
    for i in 0..120 {
        let part = generate::part(&mut random, &shape);
        let ray = generate::ray(&mut random, &part, STYLES[i % STYLES.len()]);
        let file = FileBuilder::from(&part).build();
        let mut case = Case::new(part, ray, 2052);
        for t in 0..1024 {
            let bit = case.bits[t / 8] >> (t % 8) & 1;
            assert!(case.marks[t] == 1 || case.marks[t] == 2 * bit);
        }
        if let FirstHit::Hit { tick, mark, .. } = first_hit(&file, &ray, 2047) {
            case.marks[tick as usize] = mark.byte();
            case.check_tick(tick, &[7 * 1024 + 1]);
            case.check_tick(tick.saturating_sub(1), &[7 * 1024 + 1]);
        }
    }
}
