//! Marks, probes and budgets against the rules, by the exact fractions and by
//! the quick path: each tick judged alone, the probe counts by their definitions,
//! all by fractions; first hit and column by the full cast.

#[path = "../common/worked.rs"]
mod worked;

mod halving;
mod marching;

use marching::Step;
use reference::cast::{judge_tick, probe_count};
use reference::field::{ExactField, Ray};
use reference::generate::{self, Shape, SplitMix64, STYLES};
use reference::march::{march_count, FIRST_CANDIDATE};
use reference::part::{read, FileBuilder, Part};
use reference::quick::TickField;

struct Case {
    part: Part,
    ray: Ray,
    file: Vec<u8>,
    /// Each tick judged alone.
    alone: Vec<u8>,
    /// The probe count of the whole ray by its definition.
    count: u32,
    /// That of a march.
    march_count: u32,
    /// The steps of a march.
    steps: Vec<Step>,
}

impl Case {
    fn new(part: Part, ray: Ray) -> Case {
        let mark = |t| judge_tick(&part, &ray, t).expect("a tree").byte();
        Case {
            file: FileBuilder::from(&part).build(),
            alone: (0..1024).map(mark).collect(),
            count: probe_count(&part, &ray, 0, 1024).expect("a tree"),
            march_count: march_count(&part, &ray, 0, FIRST_CANDIDATE).expect("a tree"),
            steps: marching::steps(&part, &ray),
            part,
            ray,
        }
    }

    fn check(&self) {
        assert!((1..=2047).contains(&self.count));
        self.check_halving::<TickField>();
        self.check_halving::<ExactField>();
        assert!((5..=2052).contains(&self.march_count));
        self.check_marching::<TickField>();
        self.check_marching::<ExactField>();
    }
}

fn run(seed: u64, shape: &Shape, count: usize) {
    let mut random = SplitMix64::new(seed);
    for style in STYLES {
        for _ in 0..count {
            let part = generate::part(&mut random, shape);
            let ray = generate::ray(&mut random, &part, style);
            Case::new(part, ray).check();
        }
    }
}

#[test]
fn few_points() {
    let shape = Shape {
        points: (1, 4),
        reach: 500,
        radius: (50, 1024),
        weight: (-6, 30),
        iso: (1, 6),
    };
    run(41, &shape, 30);
}

#[test]
fn small_radii() {
    let shape = Shape {
        points: (1, 6),
        reach: 15,
        radius: (1, 15),
        weight: (-9, 40),
        iso: (1, 5),
    };
    run(42, &shape, 30);
}

#[test]
fn large_weights() {
    let shape = Shape {
        points: (2, 6),
        reach: 300,
        radius: (200, 1024),
        weight: (-4096, 4096),
        iso: (1, 300),
    };
    run(43, &shape, 20);
}

/// File K at places inside, outside and undecided, and generated parts.
#[test]
fn rays_of_no_length() {
    let at = |at| Ray { a: at, b: at };
    let k = read(&worked::file_k()).expect("accepted");
    for place in [[0; 3], [256, 256, 0], [362, 5, 2], [512, 0, 0]] {
        Case::new(k.clone(), at(place)).check();
    }
    let mut random = SplitMix64::new(45);
    for _ in 0..26 {
        let part = generate::cancelling_or_bored(&mut random);
        let ray = generate::no_length(&mut random, &part);
        Case::new(part, ray).check();
    }
}

#[test]
fn deep_trees() {
    let shape = Shape {
        points: (10, 30),
        reach: 700,
        radius: (50, 600),
        weight: (-5, 12),
        iso: (1, 4),
    };
    run(44, &shape, 3);
}
