//! The place lister of the crates, run as a program, against the reference's
//! bounds at a place.

mod common;

use common::printed;
use reference::cast::bounds_at;
use reference::generate::{self, mutate, random_bytes, random_records, Shape, SplitMix64};
use reference::part::{FileBuilder, Kind, Node, Part};

/// Bytes that the program reads at most: a place and one more than the longest
/// file has.
const MOST: usize = 6 + 65_537;

/// Near and small, near and large, everywhere, many points, and none of them
/// of positive weight.
const SHAPES: [Shape; 5] = [
    Shape {
        points: (1, 4),
        reach: 9,
        radius: (1, 9),
        weight: (-4096, 4096),
        iso: (1, 4),
    },
    Shape {
        points: (1, 6),
        reach: 600,
        radius: (50, 1024),
        weight: (-10, 10),
        iso: (1, 4096),
    },
    Shape {
        points: (3, 12),
        reach: 2047,
        radius: (1, 1024),
        weight: (-4096, 4096),
        iso: (1, 4096),
    },
    Shape {
        points: (30, 90),
        reach: 700,
        radius: (400, 1024),
        weight: (-4096, 4096),
        iso: (1, 4096),
    },
    Shape {
        points: (1, 8),
        reach: 300,
        radius: (300, 1024),
        weight: (-4096, -1),
        iso: (1, 4096),
    },
];

/// What the program should print.
fn expected(file: &[u8], at: [i16; 3]) -> String {
    match bounds_at(file, at.map(i32::from)) {
        Err(number) => format!("refused {number}\n"),
        Ok(bounds) => format!("bounds {} {}\n", bounds.low, bounds.high),
    }
}

fn compare(file: &[u8], at: [i16; 3]) -> String {
    let mut input: Vec<u8> = at.iter().flat_map(|c| c.to_le_bytes()).collect();
    input.extend_from_slice(file);
    let text = printed("placelist", &input, MOST);
    assert_eq!(text, expected(file, at), "{at:?} {file:?}");
    text
}

fn point(r: u16, w: i16) -> FileBuilder {
    FileBuilder::new(1).point(r, [0; 3], w)
}

/// A tree whose field differs where two coordinates change places.
fn uneven() -> Vec<u8> {
    let near = FileBuilder::new(1).point(1024, [2000, 100, -200], 4096);
    let low = near.point(1000, [-2047, -50, 300], -4096).sum();
    let side = low.point(900, [30, 1990, 0], 77).sum();
    let back = side.point(800, [-1, -1900, 60], -78).sum();
    let top = back.point(700, [5, 40, 2040], 3).sum();
    top.point(1023, [-80, 0, -2045], -2).sum().build()
}

/// Points alone, none of them joined.
fn held(points: i16) -> FileBuilder {
    (0..points).fold(FileBuilder::new(1), |file, i| {
        file.point(1024, [i, -2 * i, 3], 4096 - i)
    })
}

#[test]
fn starred_places() {
    let k = point(512, 4).build();
    let four = "bounds 17179869184 17179869184\n";
    assert_eq!(compare(&k, [0, 0, 0]), four);
    assert_eq!(compare(&k, [512, 0, 0]), "bounds 0 0\n");
    let near = "bounds 4296802500 4296802500\n";
    assert_eq!(compare(&k, [362, 0, 0]), near);
    let three = compare(&point(3, 1).build(), [1, 0, 0]);
    assert_eq!(three, "bounds 3393528516 3393645025\n");
    let hollow = compare(&point(3, -1).build(), [1, 0, 0]);
    assert_eq!(hollow, "bounds -3393645025 -3393528516\n");
}

#[test]
fn refusals() {
    let bad = point(512, 4).mark([0; 4]).version(9);
    for (file, number) in [
        (bad, 2),
        (point(512, 4).version(9), 3),
        (point(512, 4).distance(25), 4),
        (point(512, 4).iso(0), 5),
        (FileBuilder::new(1).raw([6; 12]), 6),
        (FileBuilder::new(1).raw([2; 12]), 7),
        (point(1025, 4), 8),
        (FileBuilder::new(1).sum(), 9),
        (held(65), 10),
        (held(2), 11),
        (point(1024, 4), 12),
    ] {
        let text = compare(&file.build(), [2048, 0, 0]);
        assert_eq!(text, format!("refused {number}\n"), "{file:?}");
    }
    let passes = compare(&point(1024, 4).build(), [2047, 0, 0]);
    assert_eq!(passes, "bounds 0 0\n");
}

#[test]
fn limits() {
    let file = uneven();
    let values = [2047, -2047, 2048, -2048, 32_767, -32_768, 0];
    for x in values {
        for y in values {
            for z in values {
                let far = [x, y, z].iter().any(|c| !(-2047..=2047).contains(c));
                let text = compare(&file, [x, y, z]);
                assert_eq!(text == "refused 12\n", far, "{x} {y} {z}");
            }
        }
    }
}

#[test]
fn lengths() {
    for length in 0..=7 {
        for byte in [0, 1, 0xff] {
            let text = printed("placelist", &vec![byte; length], MOST);
            assert_eq!(text, "refused 1\n", "{length} {byte}");
        }
    }
    for (length, accepted) in [(65_536, true), (65_537, false), (70_000, false)] {
        let file = point(512, -4).leading(&vec![7; length - 24]).build();
        assert_eq!(file.len(), length);
        let text = compare(&file, [-3, 400, 17]);
        assert_eq!(text.starts_with("bounds -"), accepted, "{length}");
        assert_eq!(text == "refused 1\n", !accepted, "{length}");
    }
    let file = uneven();
    for length in 0..file.len() {
        compare(&file[..length], [1, 2, 3]);
    }
}

#[test]
fn most_points() {
    let mut wide = held(64);
    for _ in 0..21 {
        wide = wide.greater().sum().sum();
    }
    let mut long = held(1);
    for i in 1..256 {
        long = long.point(1024, [0, i, -i], 4096).sum();
    }
    for at in [[0; 3], [-300, 200, 5], [1, 1023, -2]] {
        assert!(compare(&wide.build(), at).starts_with("bounds "));
        assert!(compare(&long.build(), at).starts_with("bounds "));
        let over = long.clone().point(1, [0; 3], 1).sum();
        assert_eq!(compare(&over.build(), at), "refused 4\n");
    }
}

/// A place within a point's radius, at its rim, anywhere in range or anywhere.
fn place(random: &mut SplitMix64, part: &Part) -> [i16; 3] {
    let is_point = |node: &&Node| node.kind == Kind::Point;
    let points: Vec<Node> = part.nodes.iter().filter(is_point).copied().collect();
    let near = random.pick(&points);
    let r = i64::from(near.r);
    let mut at = [near.x, near.y, near.z];
    match random.between(0, 11) {
        0..=6 => at = at.map(|c| c + random.between(-r / 2, r / 2) as i16),
        7..=8 => {
            let rim = random.pick(&[-r, r]) + random.between(-1, 1);
            at[random.between(0, 2) as usize] += rim as i16;
        }
        9..=10 => at = at.map(|_| random.between(-2047, 2047) as i16),
        _ => at = at.map(|_| random.next_u64() as i16),
    }
    at
}

/// The file of a part, or a damaged one, or other bytes.
fn maybe_damaged(random: &mut SplitMix64, part: &Part) -> Vec<u8> {
    let mut file = FileBuilder::from(part).build();
    match random.between(0, 13) {
        0 => file = random_bytes(random),
        1 => file = random_records(random),
        2 | 3 => mutate(random, &mut file),
        4 => file.truncate(random.between(0, file.len() as i64) as usize),
        _ => {}
    }
    file
}

#[test]
fn generated_and_damaged() {
    let mut random = SplitMix64::new(91);
    let (mut bounded, mut negative, mut apart) = (0, 0, 0);
    for i in 0..3_000 {
        let part = generate::part(&mut random, &SHAPES[i % 5]);
        let file = maybe_damaged(&mut random, &part);
        let text = compare(&file, place(&mut random, &part));
        let words: Vec<&str> = text.split_whitespace().collect();
        bounded += u32::from(words[0] == "bounds");
        negative += u32::from(words[1].starts_with('-'));
        apart += u32::from(words.len() == 3 && words[1] != words[2]);
    }
    assert!((1_500..2_300).contains(&bounded), "{bounded}");
    assert!(negative > 300 && apart > 800, "{negative} {apart}");
}
