//! Demand 3 with degree 6's figures, 3S/(512 r) + 7/65536 for each unit of weight, at
//! fractional places of the ticks that the archive's casts looked at.
//!
//! Degree 4's figures, S/(256 r) + 1/16384, are never too small for degree 6, so no
//! place contradicts a reference that takes them. In a crossing tick iso lies between
//! the bounds, so the field is no farther from it than, over the points, the size of the
//! weight times the change of u cubed within the tick and one rounding. u cubed changes
//! by at most 6 (16/25)/(sqrt(5) r) = 1.718/r a step, and a tick is at most S/1024 steps
//! long: that is 0.43 of S/(256 r). One rounding, q up or down by less than 1 and the
//! size by less than 1, is less than 3.0001/65536: that is 0.76 of 1/16384. The
//! operators make no distance greater. Both shares are nearly reached below, so that
//! figures a quarter as large as degree 6's are contradicted by both.

use crate::calls::Call;
use crate::entries;
use crate::scenes::{drawn, listed};
use reference::field::{field_at, field_on_ray, nearest, rounding, tolerance, Ray};
use reference::fraction::Fraction;
use reference::generate::SplitMix64;
use reference::part::{read, Degree, FileBuilder, Kind, Part};

fn fraction(num: i128, den: i128) -> Fraction {
    Fraction::new(num, den).expect("denominator not 0")
}

/// The distance that a part of degree 6 may have at crossing ticks, by degree 4's
/// figures.
fn by_degree_4(part: &Part, ray: &Ray) -> Fraction {
    let part = Part {
        degree: Degree::Four,
        ..part.clone()
    };
    tolerance(&part, ray).expect("a tree")
}

/// A ray through a part, the archive's marks, and how many ticks were looked at.
struct Case {
    part: Part,
    ray: Ray,
    marks: [u8; 1024],
    looked_at: u32,
    /// Places by the mark of their tick.
    seen: [u64; 3],
    /// Of places in crossing ticks: how far from iso at most.
    farthest: Fraction,
}

impl Case {
    fn new(part: Part, ray: Ray, call: Call, budget: u32) -> Case {
        assert_eq!(part.degree, Degree::Six);
        let file = FileBuilder::from(&part).build();
        let mut marks = [9; 1024];
        assert!(call.plain(&file, &ray, budget, &mut marks) > 65_536 || budget == 0);
        let looked_at = marks.iter().position(|&mark| mark == 3);
        Case {
            part,
            ray,
            marks,
            looked_at: looked_at.unwrap_or(1024) as u32,
            seen: [0; 3],
            farthest: Fraction::zero(),
        }
    }

    /// Checks the mark of tick t at the place s, which the tick holds.
    fn check_place(&mut self, t: u32, s: &Fraction) {
        assert!(fraction(t.into(), 1024) <= *s && *s <= fraction((t + 1).into(), 1024));
        let field = field_at(&self.part, &self.ray.place(s)).expect("a tree");
        let iso = Fraction::from(i64::from(self.part.iso));
        let mark = self.marks[t as usize];
        let right = match mark {
            0 => field < iso,
            1 => {
                let distance = (&field - &iso).abs().reduced();
                let near = Some(&distance) <= tolerance(&self.part, &self.ray).as_ref();
                self.farthest = distance.max(self.farthest.clone());
                near
            }
            2 => field >= iso,
            _ => false,
        };
        assert!(
            right,
            "mark {mark}, tick {t}, place {s}, {:?} {:?}",
            self.ray, self.part
        );
        self.seen[usize::from(mark)] += 1;
    }

    /// Every crossing tick at its ends, its middle and odd places, and some others.
    fn check(&mut self) {
        for t in 0..self.looked_at {
            let places = match (self.marks[t as usize], t % 16) {
                (1, _) => 0..=14,
                (_, 0) => 0..=2,
                _ => continue,
            };
            let last = i128::from(*places.end());
            for k in places {
                let n = last * i128::from(t) + k;
                self.check_place(t, &fraction(n, 1024 * last));
            }
        }
        let points = self.part.nodes.clone();
        for point in points.iter().filter(|node| node.kind == Kind::Point) {
            let Some(s) = nearest(&self.ray, point) else {
                return;
            };
            let tick = (&s * &Fraction::from(1024))
                .floor()
                .to_i128()
                .expect("fits");
            if (0..i128::from(self.looked_at)).contains(&tick) {
                self.check_place(tick as u32, &s);
            }
        }
    }

    /// The share of a distance that the farthest place has, in thousandths.
    fn share(&self, of: &Fraction) -> i128 {
        let thousand = &self.farthest * &Fraction::from(1000);
        let share = thousand.checked_div(of).expect("points with a weight");
        share.floor().to_i128().expect("fits")
    }

    /// The shares of degree 6's distance and of degree 4's.
    fn shares(&self) -> [i128; 2] {
        let of_6 = tolerance(&self.part, &self.ray).expect("a tree");
        [of_6, by_degree_4(&self.part, &self.ray)].map(|of| self.share(&of))
    }
}

#[test]
fn drawn_and_listed_rays() {
    let mut random = SplitMix64::new(303);
    let (mut seen, mut rays, mut most) = ([0; 3], 0, [0; 2]);
    for scene in listed().iter().chain(&drawn(303)) {
        for &ray in &scene.rays {
            let budget = random.pick(&[2052, 2052, 2052, 20, 50]);
            let call = random.pick(&[Call::FullCast, Call::MarchingCast]);
            let mut case = Case::new(scene.part(Degree::Six), ray, call, budget);
            case.check();
            seen = [0, 1, 2].map(|mark| seen[mark] + case.seen[mark]);
            let shares = case.shares();
            most = [0, 1].map(|i| most[i].max(shares[i]));
            rays += 1;
        }
    }
    println!("{rays} rays, places {seen:?}, greatest shares {most:?}");
    assert!(seen.iter().all(|&count| count >= 8_000), "{seen:?}");
    assert!(most[1] <= 1000);
}

/// A point whose surface is where u cubed is steepest: at u = 4/5 it has 64/125 of its
/// weight. The ray along x goes through its centre.
fn steepest(r: u16, x: i16) -> Case {
    let file = FileBuilder::new(2048).version(2).point(r, [x, 0, 0], 4000);
    let ray = Ray {
        a: [-2047, 0, 0],
        b: [2047, 0, 0],
    };
    let part = read(&file.build()).expect("accepted");
    let mut case = Case::new(part, ray, Call::FullCast, 2047);
    case.check();
    case
}

/// Long ticks: nearly 0.286 of degree 6's distance is reached.
#[test]
fn steep_crossing_ticks() {
    let sizes = (20..=200)
        .step_by(9)
        .flat_map(|r| [-3, -2, -1, 0].map(|x| (r, x)));
    let cases: Vec<Case> = sizes.map(|(r, x)| steepest(r, x)).collect();
    let most = cases.iter().map(Case::shares).max().expect("some");
    println!("{} rays, greatest shares {most:?}", cases.len());
    assert!(most[0] > 250 && most[0] <= 287, "{most:?}");
    assert!(most[1] > 375 && most[1] <= 430, "{most:?}");
}

/// A place at which q of a heavy point is just above 65,535 and rounded up to 65,536:
/// with r 958 and a squared distance of 14 it is 65,535.0003. Weight and iso are 4,096:
/// the high is iso exactly, and the field is 0.1875 below it. Nearly 3/7 of degree 6's
/// distance is reached.
#[test]
fn a_crossing_place_with_the_most_rounding() {
    let file = FileBuilder::new(4096).version(2).point(958, [0; 3], 4096);
    let part = read(&file.build()).expect("accepted");
    let at = [3, 2, 1];
    let mut bounds = [0; 2];
    assert_eq!(
        entries::place_bounds(&file.build(), at, &mut bounds),
        65_536
    );
    assert_eq!(bounds[1], 4096 << 32);
    let mut case = Case::new(part, Ray { a: at, b: at }, Call::FullCast, 2047);
    case.check();
    assert!(case.seen[1] > 10_000 && case.seen[0] + case.seen[2] == 0);
    assert_eq!(case.shares(), [428, 749]);
}

/// The figures themselves: one point of radius 5 and weight -625, another of radius 10
/// and weight 100, and S 6.
#[test]
fn the_figures() {
    let file = FileBuilder::new(1).version(2).point(5, [0; 3], -625);
    let part = read(&file.point(10, [1, 2, 3], 100).cut().build()).expect("accepted");
    let ray = Ray {
        a: [0, 3, 0],
        b: [4, 2, 1],
    };
    let slopes = &fraction(625 * 3 * 6, 512 * 5) + &fraction(100 * 3 * 6, 512 * 10);
    let most = fraction(725 * 7, 65_536);
    assert_eq!(tolerance(&part, &ray), Some(&slopes + &most));
    assert_eq!(rounding(&part), Some(most));
    let of_4 = &fraction(625 * 6, 256 * 5) + &fraction(100 * 6, 256 * 10);
    assert_eq!(by_degree_4(&part, &ray), &of_4 + &fraction(725, 16_384));
}

/// At (1, 0, 0) of a point of r 2, w 64: u is 3/4, and the field 64 times 27/64; of
/// version 1 it is 64 times 9/16.
#[test]
fn the_field() {
    let ray = Ray {
        a: [0; 3],
        b: [2, 0, 0],
    };
    for (version, expected) in [(1, 36), (2, 27)] {
        let file = FileBuilder::new(1).version(version).point(2, [0; 3], 64);
        let part = read(&file.build()).expect("accepted");
        let field = field_on_ray(&part, &ray, 1, 2);
        assert_eq!(field, Some(Fraction::from(expected)));
    }
}
