//! Marching casts.

use crate::worked::{at_y, file_k, AXIS};
use crate::Case;
use reference::cast::{full_cast, full_cast_by, judge, FullCast, Mark, NOT_LOOKED_AT};
use reference::field::{tick_bounds, Ray, SpanBounds};
use reference::march::{marching_cast, marching_cast_by};
use reference::part::{read, FileBuilder, Part};

/// What a march makes at one tick: candidates there, down to the one that is
/// settled.
pub struct Step {
    tick: u32,
    probes: u32,
}

/// The steps of a march by fractions. The least number of halvings after which
/// the candidate is decided or one tick long gives the step's length and probes,
/// and twice the length is the next candidate.
pub fn steps(part: &Part, ray: &Ray) -> Vec<Step> {
    let settled = |first: u32, length: u32| {
        let bounds = tick_bounds(part, ray, first, first + length).expect("a tree");
        length == 1 || judge(bounds, part.iso) != Mark::Crossing
    };
    let mut steps = Vec::new();
    let (mut tick, mut candidate) = (0, 64);
    while tick < 1024 {
        let cut = candidate.min(1024 - tick);
        let halvings = (0..).find(|&n| settled(tick, cut >> n)).expect("a tick");
        let probes = halvings + 1;
        steps.push(Step { tick, probes });
        tick += cut >> halvings;
        candidate = 2 * (cut >> halvings);
    }
    steps
}

impl Case {
    /// Marching casts with budgets about the count, and with fewer.
    pub fn check_marching<F: SpanBounds>(&self) {
        let count = self.march_count;
        assert_eq!(
            self.steps.iter().map(|step| step.probes).sum::<u32>(),
            count
        );
        let limits = [0, 1, count - 1, count, count + 1, 2047, 2052, u32::MAX];
        let fewer = (2..count).step_by(1 + count as usize / 20);
        for budget in limits.into_iter().chain(fewer) {
            self.check_marching_cast::<F>(budget);
        }
        let mut both = [[9; 1024]; 2];
        full_cast_by::<F>(&self.file, &self.ray, 2047, &mut both[0]);
        marching_cast_by::<F>(&self.file, &self.ray, 2052, &mut both[1]);
        assert_eq!(both[0], both[1]);
    }

    fn check_marching_cast<F: SpanBounds>(&self, budget: u32) {
        let mut marks = [9; 1030];
        let cast = marching_cast_by::<F>(&self.file, &self.ray, budget, &mut marks);
        let probes = budget.min(self.march_count);
        let (expected, reached) = match self.march_reached(budget) {
            Some(tick) => (FullCast::Spent { probes, tick }, tick as usize),
            None => (FullCast::Complete { probes }, 1024),
        };
        assert_eq!(cast, expected);
        assert_eq!(budget < self.march_count, reached < 1024);
        assert_eq!(marks[..reached], self.alone[..reached]);
        assert!(marks[reached..1024].iter().all(|&m| m == NOT_LOOKED_AT));
        assert_eq!(marks[1024..], [9; 6]);
    }

    /// The tick of the first step whose probes are more than what the steps before
    /// it leave of the budget.
    fn march_reached(&self, budget: u32) -> Option<u32> {
        let mut left = budget;
        let beyond = self.steps.iter().find(|step| {
            let enough = left.checked_sub(step.probes);
            left = enough.unwrap_or_default();
            enough.is_none()
        });
        beyond.map(|step| step.tick)
    }
}

/// The tick reached with each budget from 0 to 48 on the printed ray, worked out
/// from its runs: a stretch of it is undecided if a crossing tick or ticks of two
/// kinds are in it.
const REACHED: [u32; 49] = [
    0, 64, 192, 192, 320, 320, 320, 320, 320, 320, 328, 328, 328, 328, 330, 330, 330, 331, 333,
    337, 345, 361, 393, 457, 585, 585, 585, 649, 649, 649, 681, 681, 681, 681, 689, 689, 689, 693,
    693, 693, 693, 694, 696, 700, 708, 724, 756, 820, 948,
];

#[test]
fn the_printed_ray() {
    let k = file_k();
    let (mut marks, mut halved) = ([9; 1024], [9; 1024]);
    full_cast(&k, &AXIS, 39, &mut halved);
    let complete = FullCast::Complete { probes: 49 };
    for budget in [49, 50, 2047, 2052, u32::MAX] {
        assert_eq!(marching_cast(&k, &AXIS, budget, &mut marks), complete);
        assert_eq!(marks, halved);
    }
    for (probes, tick) in (0..).zip(REACHED) {
        let spent = FullCast::Spent { probes, tick };
        assert_eq!(marching_cast(&k, &AXIS, probes, &mut marks), spent);
        let (looked_at, rest) = marks.split_at(tick as usize);
        assert_eq!(looked_at, &halved[..tick as usize]);
        assert!(rest.iter().all(|&m| m == NOT_LOOKED_AT));
    }
    Case::new(read(&k).expect("accepted"), AXIS).check();
}

/// 64, 128, 256 and 512 ticks, and the 64 that are left.
#[test]
fn an_empty_ray_takes_5_probes() {
    let mut marks = [9; 1024];
    let reached = [0, 64, 192, 448, 960];
    for (probes, tick) in (0..).zip(reached) {
        let spent = FullCast::Spent { probes, tick };
        let cast = marching_cast(&file_k(), &at_y(512), probes, &mut marks);
        assert_eq!(cast, spent);
    }
    let cast = marching_cast(&file_k(), &at_y(512), 5, &mut marks);
    assert_eq!(cast, FullCast::Complete { probes: 5 });
    assert_eq!(marks, [0; 1024]);
}

/// The ray from (0, 0, 0) to (1, 0, 0) through a point of r 1,024 at (2, 0, 0)
/// with w 1 and iso 1: every tick is crossing. Seven probes at tick 0, two at each
/// tick but the last, and one there.
#[test]
fn most_probes() {
    let file = FileBuilder::new(1).point(1024, [2, 0, 0], 1).build();
    let (a, b) = ([0; 3], [1, 0, 0]);
    let ray = Ray { a, b };
    let mut marks = [9; 1024];
    for budget in 2046..=2053 {
        let cast = marching_cast(&file, &ray, budget, &mut marks);
        let expected = match budget {
            2046 => (2046, Some(1020)),
            2047..=2048 => (budget, Some(1021)),
            2049..=2050 => (budget, Some(1022)),
            2051 => (budget, Some(1023)),
            _ => (2052, None),
        };
        let answer = match expected {
            (probes, Some(tick)) => FullCast::Spent { probes, tick },
            (probes, None) => FullCast::Complete { probes },
        };
        assert_eq!(cast, answer);
        let reached = expected.1.unwrap_or(1024) as usize;
        assert!(marks[..reached].iter().all(|&m| m == 1));
        assert!(marks[reached..].iter().all(|&m| m == NOT_LOOKED_AT));
    }
    Case::new(read(&file).expect("accepted"), ray).check();
}
