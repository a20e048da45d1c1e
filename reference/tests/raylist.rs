//! The ray lister of the crates, run as a program, against the reference's.

mod common;
#[path = "common/worked.rs"]
mod worked;

use common::printed;
use reference::field::Ray;
use reference::generate::{self, cancelling_or_bored, fault, mutate, part_of_form};
use reference::generate::{Shape, SplitMix64, FORMS, STYLES};
use reference::lister::{input, list};
use reference::part::FileBuilder;
use std::fs;
use std::path::Path;
use std::process::Command;
use worked::{at_y, file_k, AXIS};

/// Bytes that the program reads at most: a ray, a budget and one more than the
/// longest file has.
const MOST: usize = 14 + 65_537;

/// What document 01 prints, whole, for file K and the ray along the axis.
const WHOLE: &str = "empty 0 330\n\
    crossing 330 331\n\
    inside 331 693\n\
    crossing 693 694\n\
    empty 694 1024\n\
    probes 39 complete\n";

fn compare(input: &[u8]) -> String {
    let text = printed("raylist", input, MOST);
    assert_eq!(text, list(input), "{input:?}");
    text
}

#[test]
fn worked_rays() {
    let k = file_k();
    assert_eq!(compare(&input(&AXIS, 2047, &k)), WHOLE);
    let spent = compare(&input(&AXIS, 14, &k));
    assert_eq!(spent, "empty 0 330\nprobes 14 spent 330\n");
    let none = compare(&input(&AXIS, 0, &k));
    assert_eq!(none, "probes 0 spent 0\n");
    let empty = compare(&input(&at_y(512), 2047, &k));
    assert_eq!(empty, "empty 0 1024\nprobes 1 complete\n");
    let near = compare(&input(&at_y(362), 2047, &k));
    assert!(near.contains("crossing 509 510\ninside 510 514\ncrossing 514 515\n"));
    for budget in [15, 16, 31, 38, 39, 40, 65_535] {
        compare(&input(&AXIS, budget, &k));
    }
}

/// The script at the root, with and without a file; its example is the gate's.
#[test]
fn script() {
    let root = Path::new(env!("CARGO_MANIFEST_DIR")).join("..");
    let example = fs::read(root.join("examples/k.ray")).unwrap();
    assert_eq!(example, input(&AXIS, 2047, &file_k()));
    assert_eq!(
        example,
        fs::read(root.join("crates/raylist/stdin")).unwrap()
    );
    for words in [&[][..], &[root.join("examples/k.ray")]] {
        let run = Command::new(root.join("raylist"))
            .args(words)
            .output()
            .unwrap();
        assert!(run.status.success());
        assert_eq!(String::from_utf8(run.stdout).unwrap(), WHOLE);
    }
}

#[test]
fn refusals() {
    let k = FileBuilder::new(1).point(512, [0; 3], 4);
    for question in 1..=11 {
        let text = compare(&input(&AXIS, 9, &fault(k.clone(), question).build()));
        assert_eq!(text, format!("refused {question}\n"));
    }
    for value in [2048, -2048, 32_767, -32_768] {
        for i in 0..6 {
            let mut ray = AXIS;
            let end = if i < 3 { &mut ray.a } else { &mut ray.b };
            end[i % 3] = value;
            assert_eq!(compare(&input(&ray, 9, &k.build())), "refused 12\n");
        }
    }
}

/// The runs of a ray of no length are one, of the mark of its place.
#[test]
fn ends_that_coincide() {
    let k = file_k();
    for (at, budget, text) in [
        ([-7; 3], 0, "probes 0 spent 0\n"),
        ([-7; 3], 1, "inside 0 1024\nprobes 1 complete\n"),
        ([512, 0, 0], 9, "empty 0 1024\nprobes 1 complete\n"),
        ([362, 5, 2], 2047, "crossing 0 1024\nprobes 2047 complete\n"),
        ([362, 5, 2], 10, "probes 10 spent 0\n"),
        ([362, 5, 2], 12, "crossing 0 2\nprobes 12 spent 2\n"),
        ([2048; 3], 9, "refused 12\n"),
    ] {
        let ray = Ray { a: at, b: at };
        assert_eq!(compare(&input(&ray, budget, &k)), text);
    }
}

#[test]
fn lengths() {
    let whole = input(&AXIS, 2047, &file_k());
    for length in 0..whole.len() {
        assert_eq!(compare(&whole[..length]), "refused 1\n");
    }
    for (length, accepted) in [(65_536, true), (65_537, false), (70_000, false)] {
        let builder = FileBuilder::new(1).point(512, [0; 3], 4);
        let file = builder.leading(&vec![7; length - 24]).build();
        let text = compare(&input(&AXIS, 2047, &file));
        assert_eq!(text.ends_with("probes 39 complete\n"), accepted);
        assert_eq!(text == "refused 1\n", !accepted);
    }
}

#[test]
fn generated_and_damaged() {
    let shape = Shape {
        points: (1, 20),
        reach: 500,
        radius: (100, 1024),
        weight: (-20, 60),
        iso: (1, 8),
    };
    let mut random = SplitMix64::new(111);
    let (mut refused, mut spent, mut no_length) = (0, 0, 0);
    for i in 0..1_000 {
        let part = match i % 5 {
            4 => cancelling_or_bored(&mut random),
            form => part_of_form(&mut random, &shape, FORMS[form]),
        };
        let mut ray = generate::ray(&mut random, &part, STYLES[i % 6]);
        if i % 20 == 0 {
            ray.b = ray.a;
        }
        let budget = random.pick(&[2047, 2047, 1, 20, 37, 300]);
        let mut input = input(&ray, budget, &FileBuilder::from(&part).build());
        if random.one_in(4) {
            mutate(&mut random, &mut input);
        }
        let text = compare(&input);
        refused += u32::from(text.starts_with("refused "));
        spent += u32::from(text.contains(" spent "));
        no_length += u32::from(text.contains("probes ") && i % 20 == 0);
    }
    assert!((50..250).contains(&refused), "{refused}");
    assert!((100..600).contains(&spent), "{spent}");
    assert!(no_length >= 30, "{no_length}");
}
