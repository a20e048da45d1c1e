//! Hits at every tick.

use crate::calls::Host;
use crate::lines::{lines, STRETCHES};
use crate::promises::{figure, Scene};
use crate::requests::operators_and_degree;
use crate::seen::Seen;
use crate::worst::{self, fewest, most};
use reference::cast::{FirstHit, Mark};

/// First hits on a ray with budgets around the figure and around the hit's own probes;
/// the probes.
fn compare(host: &mut Host, scene: &Scene) -> u32 {
    let (tick, mark) = scene.first.expect("a hit");
    let unlimited = host.first_hit(scene, u32::MAX);
    let probes = unlimited.probes().expect("an accepted ray");
    let hit = FirstHit::Hit { tick, mark, probes };
    assert_eq!(unlimited, hit, "{scene:?}");
    let enough = figure(tick);
    for budget in [0, probes - 1, probes, enough - 1, enough, enough + 1] {
        let answer = host.first_hit(scene, budget);
        match budget < probes {
            true => assert!(matches!(answer, FirstHit::Spent { probes, .. } if probes == budget)),
            false => assert_eq!(answer, hit),
        }
    }
    probes
}

/// The same by the exact fractions, with each tick judged by them too.
fn compare_exactly(scene: &Scene) {
    assert_eq!(scene.first_by_fractions(), scene.first);
    compare(&mut Host::exact(), scene);
}

/// Every other line is compared with the viewer's first hit, and of each line a ray in
/// 64 with the exact fractions too.
#[test]
fn generated_lines() {
    let mut hosts = [Host::quick(), Host::viewing()];
    let mut seen = Seen::new();
    let mut exact = 0;
    for (i, line) in lines(22).iter().enumerate() {
        for scene in (0..1024).filter_map(|h| line.hit_at(h)) {
            let (h, mark) = scene.first.expect("a hit");
            let probes = compare(&mut hosts[i % 2], &scene);
            assert_eq!(mark, Mark::Crossing);
            assert!(
                (fewest(h)..=most(h)).contains(&probes),
                "{probes} {scene:?}"
            );
            seen.count(h, probes, &line.classes());
            if h as usize % 64 == i {
                compare_exactly(&scene);
                exact += 1;
            }
        }
    }
    seen.print("generated lines", hosts.iter().map(Host::calls).sum());
    println!("rays by the fractions: {exact}");
    assert!(seen.hits()[0] >= 12 && exact >= 300);
    assert_eq!(seen.classes.len(), 5 + 2 + STRETCHES.len());
    assert!(seen.classes.values().all(|&n| n >= 500));
}

/// A hit at each tick with the most probes that any pattern of stretches costs there.
#[test]
fn the_most_probes() {
    let mut host = Host::quick();
    let mut seen = Seen::new();
    for (h, scene) in (0..).zip(worst::scenes()) {
        assert_eq!(scene.first, Some((h, Mark::Crossing)));
        let probes = compare(&mut host, scene);
        assert_eq!(probes, most(h), "{scene:?}");
        seen.count(h, probes, &operators_and_degree(&scene.part));
        if h % 128 == h / 128 {
            compare_exactly(scene);
        }
    }
    seen.print("the most probes", host.calls());
    assert_eq!(seen.hits(), [1, 1]);
    assert_eq!([0..1, 1..1024].map(|t| seen.nearest(t)), [(0, 0), (1, 1)]);
    assert!(seen.classes.values().all(|&n| n >= 256));
}
