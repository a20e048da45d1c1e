//! The part lister of the crates, run as a program, against the reference's
//! reader: the check of a file, and of an accepted one every node.

mod common;

use common::printed;
use reference::generate::{self, mutate, random_bytes, random_records, Shape, SplitMix64};
use reference::part::{read, FileBuilder, Node};

/// What it should print.
fn expected(file: &[u8]) -> String {
    match read(file) {
        Err(number) => format!("refused {number}\n"),
        Ok(part) => {
            let version = part.degree.version();
            let head = format!(
                "nodes {} iso {} version {version}\n",
                part.nodes.len(),
                part.iso
            );
            part.nodes.iter().map(line).fold(head, |text, l| text + &l)
        }
    }
}

fn line(node: &Node) -> String {
    let kind = node.kind as u8;
    let Node { r, x, y, z, w, .. } = node;
    format!("{kind} {r} {x} {y} {z} {w}\n")
}

fn compare(file: &[u8]) -> bool {
    let text = printed("partlist", file, 65_537);
    assert_eq!(text, expected(file), "{file:?}");
    text.starts_with("nodes ")
}

fn point() -> FileBuilder {
    FileBuilder::new(4096).point(1024, [-2047, 2047, -1], -4096)
}

#[test]
fn lengths_and_distances() {
    let file = point().build();
    for length in 0..=file.len() {
        compare(&file[..length]);
        compare(&file[file.len() - length..]);
    }
    for length in [0, 1, 65_511, 65_512, 65_513, 70_000] {
        let accepted = compare(&point().leading(&vec![1; length]).build());
        assert_eq!(accepted, length <= 65_512);
    }
    for distance in [0, 12, 23, 24, 25, 36, 6_144, 6_156, 65_536, u32::MAX] {
        for length in [0, 11, 12, 6_120] {
            compare(&point().leading(&vec![0; length]).distance(distance).build());
        }
    }
}

#[test]
fn most_records() {
    for (points, accepted) in [(1, true), (64, true), (256, true), (257, false)] {
        let mut file = point();
        for _ in 1..points {
            file = file.point(7, [0, -300, 2000], 4096).greater();
        }
        assert_eq!(compare(&file.build()), accepted);
    }
}

#[test]
fn generated_and_damaged() {
    let shape = Shape {
        points: (1, 30),
        reach: 2047,
        radius: (1, 1024),
        weight: (-4096, 4096),
        iso: (1, 4096),
    };
    let mut random = SplitMix64::new(71);
    let mut accepted = 0;
    for i in 0..1_500 {
        let mut file = match i % 5 {
            0 => random_bytes(&mut random),
            1 => random_records(&mut random),
            _ => FileBuilder::from(&generate::part(&mut random, &shape)).build(),
        };
        if i % 5 == 3 || i % 5 == 4 {
            mutate(&mut random, &mut file);
        }
        accepted += u32::from(compare(&file));
    }
    assert!((400..1_100).contains(&accepted), "{accepted}");
}
