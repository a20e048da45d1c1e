//! What a first hit can cost whatever the part: the reference's search over patterns
//! of decided and undecided stretches that are told, not worked out.

use crate::promises::figure;
use crate::worst::{fewest, most};
use reference::cast::{first_hit_by, FirstHit, Mark};
use reference::field::{Bounds, Ray, SpanBounds};
use reference::generate::SplitMix64;
use reference::part::{FileBuilder, Part};

/// A pattern of which tick h is crossing and each tick before it is empty. A longer
/// stretch before it is decided `decided` times in eight, by the seed; every stretch
/// that holds tick h is undecided, as the tick is.
struct Pattern {
    h: u32,
    decided: i32,
    seed: i32,
}

/// The iso-value of the file that goes with a pattern.
const ISO: u16 = 1;

impl Pattern {
    /// The numbers of a pattern stand in the ray's first end.
    fn ray(&self) -> Ray {
        let a = [self.h as i32, self.decided, self.seed];
        let b = [self.h as i32, self.decided, self.seed + 1];
        Ray { a, b }
    }

    fn is_decided(&self, first: u32, after: u32) -> bool {
        let stretch = u64::from(first) << 32 | u64::from(after);
        let mut random = SplitMix64::new(stretch ^ (self.seed as u64) << 20);
        after <= self.h && (after - first == 1 || random.between(0, 7) < self.decided.into())
    }

    /// The reference's first hit.
    fn first_hit(&self, budget: u32) -> FirstHit {
        let file = FileBuilder::new(ISO).point(1, [0; 3], 1).build();
        first_hit_by::<Pattern>(&file, &self.ray(), budget)
    }

    /// Its probes with budgets around the figure and around the probes.
    fn check(&self) -> u32 {
        let h = self.h;
        let probes = self.first_hit(u32::MAX).probes().expect("accepted");
        let mark = Mark::Crossing;
        let hit = FirstHit::Hit {
            tick: h,
            mark,
            probes,
        };
        for budget in [probes, figure(h), figure(h) + 1, u32::MAX] {
            assert_eq!(self.first_hit(budget), hit);
        }
        let spent = self.first_hit(probes - 1);
        assert!(matches!(spent, FirstHit::Spent { tick, .. } if probes - 1 < figure(tick)));
        probes
    }
}

impl SpanBounds for Pattern {
    fn new(_: &Part, ray: Ray) -> Pattern {
        let [h, decided, seed] = ray.a;
        Pattern {
            h: h as u32,
            decided,
            seed,
        }
    }

    fn bounds(&self, first: u32, after: u32) -> Option<Bounds> {
        let level = i64::from(ISO) << 32;
        let high = level - i64::from(self.is_decided(first, after));
        Some(Bounds { low: 0, high })
    }

    fn middle(&self, _: u32) -> Option<Bounds> {
        None
    }
}

/// The most probes of a hit at tick h of so many ticks, over all patterns: a half
/// before it takes at most one less than twice its ticks.
fn most_of(h: u32, ticks: u32) -> u32 {
    let half = ticks / 2;
    match ticks {
        1 => 1,
        _ if h < half => 1 + most_of(h, half),
        _ => 1 + (2 * half - 1) + most_of(h - half, half),
    }
}

/// With no longer stretch decided a hit at tick h costs 2h + 11 less the ones of h's
/// binary digits: at tick 0 the figure, at every other tick less. With each decided it
/// costs 11 and these ones.
#[test]
fn the_most_and_the_fewest_probes_at_each_tick() {
    let seed = 0;
    for h in 0..1024 {
        let [none, each] = [0, 8].map(|decided| Pattern { h, decided, seed }.check());
        assert_eq!(none, 2 * h + 11 - h.count_ones());
        assert_eq!((none, each), (most(h), fewest(h)));
        assert_eq!(none, most_of(h, 1024));
        assert_eq!(none == figure(h), h == 0);
    }
}

#[test]
fn no_drawn_pattern_costs_more_or_less() {
    let mut patterns = 0;
    for h in 0..1024 {
        for (decided, seed) in (1..=7).flat_map(|d| [(d, 1), (d, 2), (d, 3)]) {
            let probes = Pattern { h, decided, seed }.check();
            let possible = fewest(h)..=most(h);
            assert!(possible.contains(&probes), "{h} {decided} {seed}");
            patterns += 1;
        }
    }
    assert_eq!(patterns, 21_504);
}
