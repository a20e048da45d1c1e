//! Searches that are spent: at tick t only with a budget below 2t + 11.

use crate::calls::Host;
use crate::lines::part;
use crate::promises::{figure, Scene};
use crate::worst::Cancelled;
use reference::cast::{FirstHit, Mark};
use reference::generate::{self, SplitMix64, STYLES};

/// What was answered.
#[derive(Debug, Default)]
struct Answers {
    /// Inside, and crossing.
    hits: [u32; 2],
    clear: u32,
    /// Spent at tick 0, and at a later one.
    spent: [u32; 2],
    /// By how little the budget stayed below the figure of the tick reached, at tick 0
    /// and at a later one.
    nearest: [Option<u32>; 2],
}

impl Answers {
    /// The host has held the answer to the promises.
    fn count(&mut self, answer: FirstHit, budget: u32) {
        match answer {
            FirstHit::Hit { mark, .. } => {
                self.hits[usize::from(mark == Mark::Crossing)] += 1;
            }
            FirstHit::Clear { .. } => self.clear += 1,
            FirstHit::Spent { tick, probes } => {
                assert_eq!(probes, budget);
                let later = usize::from(tick > 0);
                let below = figure(tick) - budget;
                self.spent[later] += 1;
                let nearest = self.nearest[later].get_or_insert(below);
                *nearest = below.min(*nearest);
            }
            FirstHit::Refused(number) => panic!("refused {number}"),
        }
    }
}

/// Each budget from 0 to 60 on rays of each style through generated parts, and budgets
/// around the figure of the hit.
#[test]
fn on_generated_rays() {
    let mut random = SplitMix64::new(204);
    let mut host = Host::quick();
    let mut answers = Answers::default();
    for i in 0..1_050 {
        let part = part(&mut random, i);
        let ray = generate::ray(&mut random, &part, STYLES[i / 7 % 6]);
        let scene = Scene::new(part, ray);
        let enough = scene.first.map(|(h, _)| figure(h));
        let around = enough.into_iter().flat_map(|n| n - 1..=n + 1);
        for budget in (0..=60).chain(around) {
            answers.count(host.first_hit(&scene, budget), budget);
        }
    }
    println!("{} calls, {answers:?}", host.calls());
    let Answers { hits, clear, .. } = answers;
    let classes = hits.into_iter().chain([clear]).chain(answers.spent);
    assert!(classes.into_iter().all(|n| n > 1_000));
    assert_eq!(answers.nearest[0], Some(1));
}

/// Each budget from 0 to 2,047 on a ray of which every tick is empty and every longer
/// stretch undecided.
#[test]
fn with_the_most_probes() {
    let mut random = SplitMix64::new(205);
    let mut host = Host::quick();
    let mut answers = Answers::default();
    let cancelled = Cancelled::new(&mut random);
    let scene = Scene::new(cancelled.part(), cancelled.ray);
    assert_eq!(scene.first, None);
    for budget in 0..=2047 {
        answers.count(host.first_hit(&scene, budget), budget);
    }
    println!("{} calls, {answers:?}", host.calls());
    assert_eq!((answers.hits, answers.clear), ([0; 2], 1));
    assert_eq!(answers.spent, [11, 2036]);
    assert_eq!(answers.nearest, [Some(1), Some(2)]);
}
