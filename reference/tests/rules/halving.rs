//! Full casts, first hits and columns, by the halving search.

use crate::worked::all_crossing;
use crate::Case;
use reference::cast::{column_by, first_hit, first_hit_by, full_cast, full_cast_by};
use reference::cast::{judge, probe_count};
use reference::cast::{Column, FirstHit, FullCast, Mark, NOT_LOOKED_AT};
use reference::field::{place_bounds, tick_bounds, ExactField, Ray, SpanBounds};
use reference::fraction::Fraction;
use reference::part::{read, FileBuilder};

impl Case {
    /// The three calls with budgets about the count, and with fewer.
    pub fn check_halving<F: SpanBounds>(&self) {
        let more = [self.count + 1, 2047, 2048, 65_536, u32::MAX];
        let fewer = (2..self.count).step_by(1 + self.count as usize / 20);
        let limits = [0, 1, self.count - 1, self.count].into_iter();
        for budget in limits.chain(more).chain(fewer) {
            self.check_full_cast::<F>(budget);
            self.check_first_hit::<F>(budget);
        }
        self.check_column::<F>();
    }

    fn check_full_cast<F: SpanBounds>(&self, budget: u32) {
        let mut marks = [9; 1030];
        let cast = full_cast_by::<F>(&self.file, &self.ray, budget, &mut marks);
        let probes = budget.min(self.count);
        let reached = match cast {
            FullCast::Spent { tick, .. } => {
                let expected = FullCast::Spent { probes, tick };
                assert!(budget < self.count && tick < 1024);
                assert_eq!(cast, expected);
                assert_eq!(self.reached(budget), Some(tick));
                tick as usize
            }
            _ => {
                assert!(budget >= self.count);
                assert_eq!(cast, FullCast::Complete { probes });
                assert_eq!(self.reached(budget), None);
                1024
            }
        };
        assert_eq!(marks[..reached], self.alone[..reached]);
        assert!(marks[reached..1024].iter().all(|&m| m == NOT_LOOKED_AT));
        assert_eq!(marks[1024..], [9; 6]);
    }

    /// The tick at which the budget ends, by the probe counts: a span whose
    /// count is within what is left is passed, another is entered.
    fn reached(&self, budget: u32) -> Option<u32> {
        let (mut first, mut after, mut left) = (0, 1024, budget);
        let count =
            |first, after| probe_count(&self.part, &self.ray, first, after).expect("a tree");
        if self.count <= budget {
            return None;
        }
        while left > 0 {
            left -= 1;
            let middle = (first + after) / 2;
            let left_half = count(first, middle);
            if left_half > left {
                after = middle;
            } else {
                left -= left_half;
                first = middle;
            }
        }
        Some(first)
    }

    fn check_first_hit<F: SpanBounds>(&self, budget: u32) {
        let hit = first_hit_by::<F>(&self.file, &self.ray, budget);
        let mut marks = [9; 1024];
        let cast = full_cast_by::<F>(&self.file, &self.ray, budget, &mut marks);
        let first = self.alone.iter().position(|&m| m != 0);
        match hit {
            FirstHit::Hit { tick, mark, probes } => {
                assert_eq!(first, Some(tick as usize));
                assert_eq!(mark.byte(), self.alone[tick as usize]);
                assert!(Some(probes) <= cast.probes());
                let fewer = first_hit_by::<F>(&self.file, &self.ray, probes - 1);
                assert!(matches!(fewer, FirstHit::Spent { .. }));
            }
            FirstHit::Clear { probes } => {
                assert_eq!(first, None);
                assert_eq!(cast, FullCast::Complete { probes });
            }
            FirstHit::Spent { probes, tick } => {
                assert!(first.is_none_or(|t| t >= tick as usize));
                assert_eq!(probes, budget);
                assert_eq!(cast, FullCast::Spent { probes, tick });
            }
            FirstHit::Refused(number) => panic!("refused {number}"),
        }
        assert!(budget < self.count || !matches!(hit, FirstHit::Spent { .. }));
    }

    /// The probes of a first hit: all spans that begin before the hit's tick
    /// and those that hold it, down to the one that settles it.
    fn hit_probes(&self, first: u32, after: u32, tick: u32) -> u32 {
        let bounds = tick_bounds(&self.part, &self.ray, first, after).expect("a tree");
        let settled = judge(bounds, self.part.iso) != Mark::Crossing || after - first == 1;
        if first > tick {
            return 0;
        }
        if settled {
            return 1;
        }
        let middle = (first + after) / 2;
        let left = self.hit_probes(first, middle, tick);
        if tick < middle {
            1 + left
        } else {
            1 + left + self.hit_probes(middle, after, tick)
        }
    }

    /// Whether a tick is solid: by its mark, and a crossing one by the place halfway
    /// from where it begins to where it ends. The mean of the bounds there, in units
    /// of 1/2^32, is at least iso.
    fn solid(&self, tick: usize) -> bool {
        if self.alone[tick] != 1 {
            return self.alone[tick] == 2;
        }
        let half = Fraction::new(1, 2).expect("a half");
        let start = |t: usize| Fraction::new(t as i128, 1024).expect("a start");
        let middle = &half * &(&start(tick) + &start(tick + 1));
        let bounds = place_bounds(&self.part, &self.ray.place(&middle)).expect("a tree");
        let sum = &Fraction::from(bounds.low) + &Fraction::from(bounds.high);
        &half * &sum >= Fraction::from(i64::from(self.part.iso) << 32)
    }

    fn check_column<F: SpanBounds>(&self) {
        let mut bits = [9; 130];
        let done = column_by::<F>(&self.file, &self.ray, &mut bits);
        let probes = self.count;
        assert_eq!(done, Column::Done { probes });
        for t in 0..1024 {
            let bit = bits[t / 8] >> (t % 8) & 1;
            assert_eq!(bit == 1, self.solid(t), "tick {t}");
        }
        assert_eq!(bits[128..], [9, 9]);
        let hit = first_hit_by::<F>(&self.file, &self.ray, u32::MAX);
        if let FirstHit::Hit { tick, probes, .. } = hit {
            assert_eq!(probes, self.hit_probes(0, 1024, tick));
        }
    }
}

/// Two large points that cancel keep every tick undecided: the most probes.
#[test]
fn most_probes() {
    let (file, ray) = all_crossing();
    let mut marks = [9; 1024];
    for budget in [2047, 2048, u32::MAX] {
        let cast = full_cast(&file, &ray, budget, &mut marks);
        assert_eq!(cast, FullCast::Complete { probes: 2047 });
        assert_eq!(cast.number(), 65_536 + 2047);
        assert_eq!(marks, [1; 1024]);
    }
    let cast = full_cast(&file, &ray, 2046, &mut marks);
    let (probes, tick) = (2046, 1023);
    assert_eq!(cast, FullCast::Spent { probes, tick });
    assert_eq!(marks[1022..], [1, 3]);
    let probes = 11;
    let mark = Mark::Crossing;
    let hit = FirstHit::Hit {
        tick: 0,
        mark,
        probes,
    };
    assert_eq!(first_hit(&file, &ray, 2047), hit);
}

/// A solid in the right half of an undecided span does not come before a
/// crossing in its left half.
#[test]
fn left_half_first() {
    let file = FileBuilder::new(1)
        .point(40, [-500, 0, 0], 2)
        .point(700, [900, 0, 0], 4000)
        .greater()
        .build();
    let ray = Ray {
        a: [-1000, 0, 0],
        b: [1000, 0, 0],
    };
    let case = Case::new(read(&file).expect("accepted"), ray);
    case.check();
    let hit = first_hit(&file, &ray, 2047);
    assert!(matches!(hit, FirstHit::Hit { tick, .. } if tick < 300));
}

/// With r 128, w 4 and iso 1 the field at y = 64 is exactly iso at x = -64
/// and x = 64, where ticks meet: the ticks between them are inside, the
/// ticks next to them crossing.
#[test]
fn a_field_equal_to_iso_is_solid() {
    let file = FileBuilder::new(1).point(128, [0; 3], 4).build();
    let ray = Ray {
        a: [-512, 64, 0],
        b: [512, 64, 0],
    };
    let mut expected = [0; 1024];
    expected[448..576].fill(2);
    expected[447] = 1;
    expected[576] = 1;
    let mut marks = [9; 1024];
    full_cast(&file, &ray, 2047, &mut marks);
    assert_eq!(marks, expected);
    Case::new(read(&file).expect("accepted"), ray).check();
    let inner = Ray {
        a: [-64, 64, 0],
        b: [64, 64, 0],
    };
    let (tick, mark, probes) = (0, Mark::Inside, 1);
    let hit = FirstHit::Hit { tick, mark, probes };
    assert_eq!(first_hit(&file, &inner, 1), hit);
}

/// The same field where x = -64 and x = 64 are the middles of ticks 479 and 543:
/// both are crossing, and solid.
#[test]
fn a_middle_equal_to_iso_is_solid() {
    let file = FileBuilder::new(1).point(128, [0; 3], 4).build();
    let ray = Ray {
        a: [-1023, 64, 0],
        b: [1025, 64, 0],
    };
    let case = Case::new(read(&file).expect("accepted"), ray);
    case.check();
    assert_eq!([479, 543].map(|t| case.alone[t]), [1, 1]);
    let mut bits = [9; 128];
    column_by::<ExactField>(&file, &ray, &mut bits);
    let bit = |t: &usize| bits[t / 8] >> (t % 8) & 1 == 1;
    assert!((0..1024).filter(bit).eq(479..=543));
}
