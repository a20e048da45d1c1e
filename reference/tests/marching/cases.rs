//! Worked rays, rays with the most probes, and refusals.

use crate::calls::Host;
use crate::probes::{probes_of, RIGHT};
use crate::requests::GROUPS;
use crate::scenes::{cancelled_k, cancelling_everywhere, crossing_everywhere, Scene};
use crate::worked::{at_y, file_k, AXIS};
use reference::cast::{FullCast, Mark};
use reference::field::Ray;
use reference::generate::{self, fault, part_of_form, Form, SplitMix64, Style};
use reference::part::FileBuilder;

/// What a stretch of a ray with these marks is judged as, if the part is one point:
/// undecided if a crossing tick or ticks of two kinds are in it.
pub fn judged_by(marks: &[u8]) -> impl Fn(u32, u32) -> Mark + '_ {
    |first, after| {
        let stretch = &marks[first as usize..after as usize];
        let kind = stretch[0];
        match stretch.iter().all(|&mark| mark == kind) {
            true if kind == 0 => Mark::Empty,
            true if kind == 2 => Mark::Inside,
            _ => Mark::Crossing,
        }
    }
}

/// The probes of a march along that ray.
pub fn count_by(marks: &[u8]) -> u32 {
    probes_of(&RIGHT, judged_by(marks)).len() as u32
}

/// Marks with these runs: the mark, the first tick and the one after the last.
fn marks_of(runs: &[(u8, usize, usize)]) -> [u8; 1024] {
    let mut marks = [0; 1024];
    for &(mark, first, after) in runs {
        marks[first..after].fill(mark);
    }
    marks
}

/// Every budget from 0 to a few past the count, by both paths: spent exactly below
/// the count, with the marks of the runs before the tick reached and 3 from it on.
fn assert_every_budget(file: &[u8], ray: &Ray, count: u32, runs: &[(u8, usize, usize)]) {
    let expected = marks_of(runs);
    for mut host in [Host::quick(), Host::exact()] {
        for budget in 0..=count + 3 {
            let (answer, marks) = host.cast(file, ray, budget, 1024);
            let probes = budget.min(count);
            let reached = match answer {
                FullCast::Spent { tick, .. } => tick as usize,
                _ => 1024,
            };
            let base = if budget < count { 131_072 } else { 65_536 };
            assert_eq!(answer.number(), base + probes);
            assert_eq!(marks[..reached], expected[..reached]);
            assert!(marks[reached..].iter().all(|&mark| mark == 3));
        }
        let (probes, _, marks) = host.complete(file, ray);
        assert_eq!((probes, marks), (count, expected.to_vec()));
    }
}

#[test]
fn the_printed_ray() {
    let runs = [(1, 330, 331), (2, 331, 693), (1, 693, 694)];
    assert_eq!(count_by(&marks_of(&runs)), 49);
    assert_every_budget(&file_k(), &AXIS, 49, &runs);
}

#[test]
fn rays_beside_the_printed_one() {
    assert_every_budget(&file_k(), &at_y(512), 5, &[]);
    let runs = [(1, 509, 510), (2, 510, 514), (1, 514, 515)];
    let count = count_by(&marks_of(&runs));
    assert_every_budget(&file_k(), &at_y(362), count, &runs);
}

/// All empty, and more probes than an empty ray takes.
#[test]
fn weights_4_and_minus_4_cancel() {
    let Scene { file, ray, .. } = cancelled_k();
    let (count, halving, marks) = Host::exact().complete(&file, &ray);
    assert_eq!(marks, [0; 1024]);
    assert!(count > 5 && halving > 1);
    assert_every_budget(&file, &ray, count, &[]);
}

/// 2,052 probes, five more than the full cast's, with every mark the one given. The
/// seven probes at tick 0 are followed by two at each tick and one at the last.
fn assert_most_probes(scene: &Scene, mark: u8) {
    let Scene { file, ray, .. } = scene;
    for mut host in [Host::quick(), Host::exact()] {
        let (probes, halving, marks) = host.complete(file, ray);
        assert_eq!((probes, halving, marks), (2052, 2047, vec![mark; 1024]));
        for budget in [0, 6, 7, 8, 1000].into_iter().chain(2046..=2053) {
            let (answer, marks) = host.cast(file, ray, budget, 1030);
            let reached = match budget {
                0..=6 => 0,
                7..2052 => (budget - 5) / 2,
                _ => 1024,
            };
            let spent = FullCast::Spent {
                probes: budget,
                tick: reached,
            };
            let complete = FullCast::Complete { probes: 2052 };
            assert_eq!(answer, if budget < 2052 { spent } else { complete });
            let (looked_at, rest) = marks[..1024].split_at(reached as usize);
            assert!(looked_at.iter().all(|&m| m == mark));
            assert!(rest.iter().all(|&m| m == 3));
        }
    }
}

#[test]
fn every_tick_crossing() {
    assert_most_probes(&crossing_everywhere(), 1);
}

#[test]
fn every_tick_empty_and_no_longer_stretch() {
    assert_most_probes(&cancelling_everywhere(), 0);
}

/// Refused with the number whatever the budget, and in whatever room the number is
/// asked before 14.
fn assert_refused(file: &[u8], ray: &Ray, number: u32) {
    let mut host = Host::quick();
    for (budget, room) in [(0, 1024), (2052, 1024), (u32::MAX, 2000), (5, 1023), (5, 0)] {
        let (answer, _) = host.cast(file, ray, budget, room);
        assert_eq!(answer, FullCast::Refused(number));
    }
}

#[test]
fn refused_files() {
    let k = FileBuilder::new(1).point(512, [0; 3], 4);
    for question in 1..=11 {
        assert_refused(&fault(k.clone(), question).build(), &AXIS, question);
    }
    for length in 0..24 {
        assert_refused(&k.build()[..length], &AXIS, 1);
    }
    // the file is asked before the ray
    let (a, b) = ([2048; 3], [2048; 3]);
    assert_refused(&k.mark([0; 4]).build(), &Ray { a, b }, 2);
}

/// Inside and outside file K's solid every tick has the place's mark after 5 probes;
/// where the bounds are on both sides of iso, every tick is crossing.
#[test]
fn ends_that_coincide() {
    for (at, mark) in [([5, 6, 7], 2), ([512, 0, 0], 0)] {
        let ray = Ray { a: at, b: at };
        assert_every_budget(&file_k(), &ray, 5, &[(mark, 0, 1024)]);
    }
    let (a, b) = ([362, 5, 2], [362, 5, 2]);
    assert_most_probes(&Scene::new(file_k(), Ray { a, b }), 1);
}

#[test]
fn refused_rays() {
    let (a, b) = ([2048; 3], [2048; 3]);
    assert_refused(&file_k(), &Ray { a, b }, 12);
    for value in [2048, -2048, 65_536, i32::MAX, i32::MIN] {
        for i in 0..6 {
            let mut ray = AXIS;
            let end = if i < 3 { &mut ray.a } else { &mut ray.b };
            end[i % 3] = value;
            assert_refused(&file_k(), &ray, 12);
        }
    }
}

#[test]
fn rooms() {
    let mut host = Host::exact();
    for room in [0, 1, 128, 1022, 1023] {
        for budget in [0, 49, u32::MAX] {
            let (answer, _) = host.cast(&file_k(), &AXIS, budget, room);
            assert_eq!(answer, FullCast::Refused(14));
        }
    }
    for room in [1024, 1025, 5000] {
        let (answer, _) = host.cast(&file_k(), &AXIS, 49, room);
        assert_eq!(answer, FullCast::Complete { probes: 49 });
        let (answer, _) = host.cast(&file_k(), &AXIS, 48, room);
        assert_eq!(answer.number(), 131_072 + 48);
    }
}

/// 511 records, and 64 values held.
#[test]
fn most_records() {
    let mut random = SplitMix64::new(172);
    let mut host = Host::quick();
    for form in [Form::LeftDeep, Form::RightDeep] {
        let part = part_of_form(&mut random, &GROUPS[8].1, form);
        let file = FileBuilder::from(&part).build();
        assert_eq!(part.nodes.len(), 511);
        for style in [Style::Centre, Style::Axis, Style::Grazing] {
            let ray = generate::ray(&mut random, &part, style);
            let (count, _, _) = host.complete(&file, &ray);
            for budget in [0, 1, count / 2, count - 1, count, count + 1] {
                let (answer, _) = host.cast(&file, &ray, budget, 1024);
                assert_eq!(answer.probes(), Some(budget.min(count)));
            }
        }
    }
}
