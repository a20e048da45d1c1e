//! The viewer's first hit of the archive on generated requests: trees of all
//! forms and sizes, damaged files, rays of all styles, floats that are no step,
//! budgets at their limits. What was covered is counted, printed and asserted.

#[path = "common/counted.rs"]
mod counted;
#[path = "common/floats.rs"]
mod floats;
#[path = "common/requests.rs"]
mod requests;

use counted::view;
use floats::changed;
use reference::cast::Mark;
use reference::generate::{cancelling_or_bored, lattice, part_of_form, SplitMix64, FORMS};
use reference::part::{read, FileBuilder, Part};
use reference::totals::Totals;
use reference::view::{in_millimetres, viewer_first_hit, ViewRay, ViewerHit};
use requests::{file, ray, GROUPS};

/// What the requests covered.
#[derive(Debug, Default)]
struct Coverage {
    requests: u32,
    /// By refusal number.
    refused: [u32; 16],
    /// Refused by question 15 with equal ends.
    equal_ends: u32,
    /// Rays of no length that are not refused.
    no_length: u32,
    crossing_hits: u32,
    inside_hits: u32,
    /// Hits past the ray's start.
    later_hits: u32,
    clear: u32,
    spent: u32,
    /// Spent past the ray's start.
    later_spent: u32,
    /// Requests not refused by their place in `budget`.
    budgets: [u32; 10],
    /// Requests not refused of which a float was changed.
    changed: u32,
}

impl Coverage {
    fn count(&mut self, answer: ViewerHit, budget: usize, ray: &ViewRay, changed: bool) {
        self.requests += 1;
        let [a, b] = [ray.a, ray.b].map(|end| end.map(f32::to_bits));
        match answer {
            ViewerHit::Refused(number) => {
                self.refused[number as usize] += 1;
                self.equal_ends += u32::from(number == 15 && a == b);
                return;
            }
            ViewerHit::Hit { entry, mark, .. } => {
                self.inside_hits += u32::from(mark == Mark::Inside);
                self.crossing_hits += u32::from(mark == Mark::Crossing);
                self.later_hits += u32::from(entry > 0.0);
            }
            ViewerHit::Clear { .. } => self.clear += 1,
            ViewerHit::Spent { reached, .. } => {
                self.spent += 1;
                self.later_spent += u32::from(reached > 0.0);
            }
        }
        self.budgets[budget] += 1;
        self.changed += u32::from(changed);
        self.no_length += u32::from(ray.a == ray.b);
    }

    /// No class of requests is rare, and no request is refused with 12, 13 or 14.
    fn assert_populated(&self) {
        let all = |classes: &[u32], least: u32| classes.iter().all(|&n| n >= least);
        assert_eq!(self.requests, 81_200);
        assert_eq!(self.refused[12..15], [0; 3]);
        assert!(all(&self.refused[1..=11], 500));
        assert!(all(&[self.no_length, self.refused[15]], 1_500));
        assert!(all(&[self.crossing_hits, self.inside_hits], 5_000));
        assert!(all(&[self.later_hits, self.clear, self.spent], 5_000));
        assert!(all(
            &[self.later_spent, self.equal_ends, self.changed],
            1_000
        ));
        assert!(all(&self.budgets, 4_000));
    }
}

/// The budget of a kind for a call that needs `count` probes; `few` is a small
/// number.
fn budget(kind: usize, count: u32, few: u32) -> u32 {
    [0, 1, few, 14, 15, count - 1, count, 2046, 2047, u32::MAX][kind]
}

/// Totals that are handed on from request to request.
struct Run {
    random: SplitMix64,
    totals: Totals,
    coverage: Coverage,
}

impl Run {
    /// Four requests on a file and a ray of the part.
    fn compare(&mut self, part: &Part) {
        let random = &mut self.random;
        let file = file(random, part);
        let ray = in_millimetres(&ray(random, part));
        let unlimited = viewer_first_hit(&file, ray, u32::MAX);
        let count = unlimited.probes().unwrap_or(1);
        for _ in 0..4 {
            let kind = random.between(0, 9) as usize;
            let budget = budget(kind, count, random.between(2, 13) as u32);
            let (ray, changed) = changed(random, &ray);
            let answer = view(&file, &ray, budget, &mut self.totals);
            self.coverage.count(answer, kind, &ray, changed);
        }
    }
}

/// File K's part, and two such points whose weights cancel.
fn worked_parts() -> [Part; 2] {
    let k = FileBuilder::new(1).point(512, [0; 3], 4);
    let two = k.clone().point(512, [0; 3], -4).sum();
    [k, two].map(|builder| read(&builder.build()).expect("accepted"))
}

#[test]
fn all_kinds() {
    let mut run = Run {
        random: SplitMix64::new(111),
        totals: Totals::default(),
        coverage: Coverage::default(),
    };
    for (scenes, shape) in GROUPS {
        for i in 0..scenes {
            let part = part_of_form(&mut run.random, &shape, FORMS[i % 4]);
            run.compare(&part);
        }
    }
    for _ in 0..4_000 {
        let part = cancelling_or_bored(&mut run.random);
        run.compare(&part);
    }
    for part in worked_parts() {
        (0..100).for_each(|_| run.compare(&part));
    }
    for sizes in [[2, 2, 2], [3, 4, 2], [5, 5, 6], [6, 6, 7]] {
        (0..100).for_each(|_| run.compare(&lattice(sizes)));
    }
    println!("{:#?} {:?}", run.coverage, run.totals);
    run.coverage.assert_populated();
    assert_eq!(run.totals.casts + run.totals.refusals, 81_200);
}
