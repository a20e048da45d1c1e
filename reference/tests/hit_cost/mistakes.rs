//! Mistaken figures, each contradicted by calls of the archive; and mistaken searches,
//! each of which breaks the promises.

use crate::entries;
use crate::promises::{figure, Scene};
use crate::starts;
use crate::worst;
use reference::cast::{column, first_hit, judge, FirstHit, Mark};
use reference::field::SpanBounds;
use reference::generate::{SplitMix64, STYLES};
use reference::quick::TickField;

/// What a hit at a tick costs at most, and a budget that is enough for it.
type Figure = fn(u32) -> u32;

/// The right figure, and mistaken ones.
const FIGURES: [(&str, Figure); 7] = [
    ("none", figure),
    ("2h + 10", |h| 2 * h + 10),
    ("h + 11", |h| h + 11),
    ("2h + 1", |h| 2 * h + 1),
    ("11", |_| 11),
    ("11 and one for each digit of h", |h| {
        11 + (32 - h.leading_zeros())
    }),
    ("one less than the most at each tick", |h| {
        worst::most(h) - 1
    }),
];

/// How many rays that start in a crossing tick.
const STARTS: usize = 84;

fn crossing_starts() -> Vec<Scene> {
    let mut random = SplitMix64::new(206);
    let start = |i: usize| starts::drawn(&mut random, i, STYLES[i % STYLES.len()]);
    (0..STARTS).map(start).collect()
}

/// The archive's k and probes of a first hit.
fn answered(scene: &Scene, budget: u32) -> (u64, u32) {
    let number = entries::first_hit(&scene.file, &scene.ray, budget);
    (number >> 32, (number & 0xffff) as u32)
}

/// On how many rays the archive costs more than the figure, and on how many it is
/// spent (k is 4) with a budget of the figure.
fn contradictions(figure: Figure, scenes: &[Scene]) -> [usize; 2] {
    let figure = |scene: &Scene| figure(scene.first.expect("a hit").0);
    let costs_more = |scene: &&Scene| {
        let (k, probes) = answered(scene, u32::MAX);
        assert_eq!(k, 1);
        probes > figure(scene)
    };
    let is_spent = |scene: &&Scene| answered(scene, figure(scene)).0 == 4;
    [
        scenes.iter().filter(costs_more).count(),
        scenes.iter().filter(is_spent).count(),
    ]
}

#[test]
fn calls_contradict_each_mistaken_figure() {
    let scenes = [crossing_starts(), worst::scenes().to_vec()].concat();
    let found = FIGURES.map(|(name, figure)| (name, contradictions(figure, &scenes)));
    println!("{found:#?}");
    assert_eq!(found[0].1, [0, 0]);
    let by_both = |(_, counts): &(_, [usize; 2])| counts[0] > 0 && counts[0] == counts[1];
    assert!(found[1..].iter().all(by_both), "{found:?}");
    // at tick 0 alone, and on every ray
    assert_eq!(found[1].1, [STARTS + 1; 2]);
    assert_eq!(found[6].1, [scenes.len(); 2]);
}

/// A search, told the budget.
type Search = fn(&Scene, u32) -> FirstHit;

/// The hit of a search that makes so many probes, or spent.
fn hit_after(scene: &Scene, probes: u32, budget: u32) -> FirstHit {
    let (tick, mark) = scene.first.expect("a hit");
    match probes > budget {
        true => FirstHit::Spent {
            tick,
            probes: budget,
        },
        false => FirstHit::Hit { tick, mark, probes },
    }
}

/// The probes of a search that probes both halves of a stretch that it halves, and
/// whether it has found the hit.
fn both_halves(field: &TickField, iso: u16, first: u32, after: u32) -> (u32, bool) {
    let mark = judge(field.bounds(first, after).expect("a tree"), iso);
    if mark != Mark::Crossing || after - first == 1 {
        return (0, mark != Mark::Empty);
    }
    let middle = (first + after) / 2;
    let (left, found) = both_halves(field, iso, first, middle);
    if found {
        return (2 + left, true);
    }
    let (right, found) = both_halves(field, iso, middle, after);
    (2 + left + right, found)
}

/// The right search, and mistaken ones.
const SEARCHES: [(&str, Search); 5] = [
    ("none", |scene, budget| {
        first_hit(&scene.file, &scene.ray, budget)
    }),
    ("the whole ray cast first", |scene, budget| {
        let whole = column(&scene.file, &scene.ray, &mut [0; 128]);
        hit_after(scene, whole.probes().expect("accepted"), budget)
    }),
    ("both halves probed", |scene, budget| {
        let field = TickField::new(&scene.part, scene.ray);
        let (probes, _) = both_halves(&field, scene.part.iso, 0, 1024);
        hit_after(scene, 1 + probes, budget)
    }),
    ("the hit's tick probed again", |scene, budget| {
        let hit = first_hit(&scene.file, &scene.ray, u32::MAX);
        hit_after(scene, 1 + hit.probes().expect("accepted"), budget)
    }),
    ("spent when the budget is used up", |scene, budget| {
        let hit = first_hit(&scene.file, &scene.ray, u32::MAX);
        let probes = hit.probes().expect("accepted");
        match probes == budget {
            true => FirstHit::Spent { tick: 0, probes },
            false => hit_after(scene, probes, budget),
        }
    }),
];

#[test]
fn mistaken_searches_break_the_promises() {
    let scenes = [crossing_starts(), worst::scenes()[..STARTS].to_vec()].concat();
    let found = SEARCHES.map(|(name, search)| {
        let breaks = |scene: &&Scene| {
            let enough = figure(scene.first.expect("a hit").0);
            let keeps = |budget| scene.keeps(figure, budget, search(scene, budget));
            ![enough, enough + 1, u32::MAX].into_iter().all(keeps)
        };
        (name, scenes.iter().filter(breaks).count())
    });
    println!("{found:#?}");
    assert_eq!(found[0].1, 0);
    assert!(found[1..].iter().all(|&(_, count)| count > STARTS));
}
