//! Generated files and rays: trees of all forms and sizes, damaged files, rays of
//! all styles, budgets and rooms at their limits, and every budget on some. What was
//! covered is counted, printed and asserted.

use crate::calls::Host;
use crate::coverage::{Coverage, BUDGETS};
use crate::cuts::Cuts;
use crate::requests::{file, ray, room, GROUPS};
use crate::scenes::{budgets, drawn, listed, Scene};
use reference::cast::{accept, FullCast};
use reference::field::Ray;
use reference::generate::{cancelling_or_bored, part_of_form, SplitMix64, FORMS};
use reference::part::Part;

/// The budget of a kind for a march of `count` probes.
fn budget(kind: usize, count: u32) -> u32 {
    let budgets: [u32; BUDGETS] = [0, 1, count - 1, count, count + 1, 2047, 2052, u32::MAX];
    budgets[kind]
}

/// All casts of a host, and what they covered.
struct Run {
    random: SplitMix64,
    host: Host,
    coverage: Coverage,
}

impl Run {
    fn new(seed: u64, host: Host) -> Run {
        Run {
            random: SplitMix64::new(seed),
            host,
            coverage: Coverage::default(),
        }
    }

    /// The march's probes on a ray, its marks compared with the full cast's; 1 if the
    /// ray is not accepted.
    fn count(&mut self, file: &[u8], ray: &Ray) -> u32 {
        let Ok(part) = accept(file, ray) else {
            return 1;
        };
        let (march, halving, _) = self.host.complete(file, ray);
        let (file, ray) = (file.to_vec(), *ray);
        self.coverage
            .ray(&Scene { part, file, ray }, march, halving);
        march
    }

    /// Two casts with drawn budgets in drawn rooms.
    fn scene(&mut self, file: &[u8], ray: &Ray) {
        let count = self.count(file, ray);
        for _ in 0..2 {
            let kind = self.random.between(0, BUDGETS as i64 - 1) as usize;
            let (of_room, room) = room(&mut self.random, 1024);
            self.coverage.rooms[of_room] += 1;
            let (answer, buffer) = self.host.cast(file, ray, budget(kind, count), room);
            self.coverage.cast(answer, kind, &buffer);
        }
    }

    fn scenes(&mut self, count: usize, part: impl Fn(&mut SplitMix64, usize) -> Part) {
        for i in 0..count {
            let part = part(&mut self.random, i);
            let file = file(&mut self.random, &part);
            let ray = ray(&mut self.random, &part);
            self.scene(&file, &ray);
        }
    }

    /// One in so many of each of `GROUPS`, and as many parts that nearly cancel or
    /// are bored as given.
    fn all_kinds(&mut self, one_in: usize, cancelling: usize) {
        for (count, shape) in GROUPS {
            self.scenes(count / one_in, |random, i| {
                part_of_form(random, &shape, FORMS[i % 4])
            });
        }
        self.scenes(cancelling, |random, _| cancelling_or_bored(random));
        println!("{:#?}", self.coverage);
    }
}

/// No class is rare. A run that makes one in `share` of the casts has that share of
/// each.
fn assert_populated(coverage: &Coverage, share: u32) {
    let all = |classes: &[u32], least: u32| classes.iter().all(|&n| n >= least / share);
    assert_eq!(coverage.requests, 19_700 / share);
    assert!(all(&coverage.refused[1..=12], 100) && all(&coverage.refused[14..], 100));
    assert_eq!(coverage.refused[13], 0);
    assert!(all(&[coverage.no_length], 200));
    assert!(all(&[coverage.complete, coverage.spent], 4_000));
    assert!(all(&coverage.marks, 3_000));
    assert!(all(&coverage.budgets, 1_200) && all(&coverage.rooms, 1_000));
    assert!(all(&coverage.probes, 80) && all(&coverage.against_halving, 40));
    let Cuts {
        cut,
        undecided,
        other_count,
    } = coverage.cuts;
    assert!(all(&[cut], 6_000) && all(&[undecided, other_count], 500));
}

#[test]
fn all_kinds_by_the_quick_path() {
    let mut run = Run::new(173, Host::quick());
    run.all_kinds(2, 2_000);
    assert_populated(&run.coverage, 1);
}

#[test]
fn all_kinds_by_the_exact_fractions() {
    let mut run = Run::new(174, Host::exact());
    run.all_kinds(20, 200);
    assert_populated(&run.coverage, 10);
}

/// Spent exactly with fewer than the count; how many casts are made.
fn assert_every_budget(host: &mut Host, scene: &Scene) -> usize {
    let Scene { file, ray, .. } = scene;
    let (count, _, _) = host.complete(file, ray);
    let casts = budgets(count).map(|budget| {
        let (answer, _) = host.cast(file, ray, budget, 1024);
        assert_eq!(answer.probes(), Some(budget.min(count)));
        let spent = matches!(answer, FullCast::Spent { .. });
        assert_eq!(spent, budget < count, "{budget} {ray:?} {file:?}");
    });
    casts.count()
}

/// On one in so many of the rays listed and drawn; how many rays and casts.
fn every_budget_on(mut host: Host, one_in: usize) -> [usize; 2] {
    let scenes = listed().into_iter().chain(drawn()).step_by(one_in);
    let casts = scenes.map(|scene| assert_every_budget(&mut host, &scene));
    let made = casts.fold([0, 0], |[rays, sum], casts| [rays + 1, sum + casts]);
    println!("{made:?}");
    made
}

#[test]
fn every_budget_by_the_quick_path() {
    let [rays, casts] = every_budget_on(Host::quick(), 1);
    assert!(rays == 662 && casts >= 31_000);
}

#[test]
fn every_budget_by_the_exact_fractions() {
    let [rays, casts] = every_budget_on(Host::exact(), 10);
    assert!(rays == 67 && casts >= 3_000);
}
