//! Rays that start in a crossing tick: every stretch that holds the tick is undecided,
//! so that the whole ray, its ten halvings and nothing else is probed.

use crate::calls::Host;
use crate::lines::part;
use crate::promises::Scene;
use crate::requests::operators_and_degree;
use reference::cast::{judge_tick, FirstHit, Mark};
use reference::field::Ray;
use reference::generate::{self, SplitMix64, Style, STYLES};
use reference::part::{FileBuilder, Part};
use std::collections::BTreeMap;

/// A ray through the part that starts near a point's surface, in a tick that is
/// crossing by the fractions, and ends where one of the style does; if it is drawn so.
fn try_drawn(random: &mut SplitMix64, part: Part, style: Style) -> Option<Scene> {
    let a = generate::ray(random, &part, Style::OneStep).a;
    let b = generate::ray(random, &part, style).b;
    let ray = Ray { a, b };
    let crossing = a != b && judge_tick(&part, &ray, 0) == Some(Mark::Crossing);
    crossing.then(|| Scene {
        file: FileBuilder::from(&part).build(),
        part,
        ray,
        first: Some((0, Mark::Crossing)),
    })
}

/// Such a ray, with a part of the kind numbered or one after it.
pub fn drawn(random: &mut SplitMix64, kind: usize, style: Style) -> Scene {
    let mut drawn = (kind..).filter_map(|kind| {
        let part = part(random, kind);
        try_drawn(random, part, style)
    });
    drawn.next().expect("a ray")
}

/// Exactly 11 probes with each budget from 11 on; spent at tick 0 with each below.
fn compare(host: &mut Host, scene: &Scene) {
    let tick = 0;
    for probes in 0..=10 {
        let spent = FirstHit::Spent { tick, probes };
        assert_eq!(host.first_hit(scene, probes), spent, "{scene:?}");
    }
    let (mark, probes) = (Mark::Crossing, 11);
    let hit = FirstHit::Hit { tick, mark, probes };
    for budget in [11, 12, 13, 14, 2046, 2047, u32::MAX] {
        assert_eq!(host.first_hit(scene, budget), hit, "{scene:?}");
    }
}

#[test]
fn cost_exactly_11() {
    let mut random = SplitMix64::new(203);
    let mut hosts = [Host::quick(), Host::viewing()];
    let mut exact = Host::exact();
    let mut classes: BTreeMap<String, u32> = BTreeMap::new();
    for i in 0..2_100 {
        let style = STYLES[i % STYLES.len()];
        let scene = drawn(&mut random, i, style);
        compare(&mut hosts[i % 2], &scene);
        if i % 20 == 0 {
            compare(&mut exact, &scene);
        }
        let ends = [format!("{style:?}")];
        for class in operators_and_degree(&scene.part).into_iter().chain(ends) {
            *classes.entry(class).or_default() += 1;
        }
    }
    let calls = hosts.iter().map(Host::calls).sum::<u64>();
    println!("{calls} calls, by the fractions {}", exact.calls());
    println!("{classes:?}");
    assert_eq!(classes.len(), 5 + 2 + STYLES.len());
    assert!(classes.values().all(|&n| n >= 200));
}
