//! Questions 16, 3 and 5 to 11 of the writer, each on both sides of its limits.

use crate::calls::write;
use crate::drawings::{operator, Drawing, Six, NUMBERS, POINT};
use crate::entries;

/// Kinds of operators.
const OPERATORS: [i32; 4] = [2, 3, 4, 5];

/// The refusal number of a write at place 0 into a buffer that has room, or 0.
fn refusal(drawing: &Drawing) -> u32 {
    let contents = vec![0xa7; drawing.bytes() + 5];
    write(drawing, &contents, 0).err().unwrap_or(0)
}

/// The refusal number of these nodes.
fn of_nodes(nodes: &[Six]) -> u32 {
    refusal(&Drawing::of(nodes))
}

/// A point's six numbers, one of them another.
fn point_with(at: usize, number: i32) -> Six {
    let mut six = POINT;
    six[at] = number;
    six
}

/// The first so many numbers of points each summed to those before it.
fn summed(count: usize) -> Drawing {
    let later = [POINT, operator(2)].concat();
    let numbers = POINT.into_iter().chain(later.into_iter().cycle());
    Drawing {
        numbers: numbers.take(count).collect(),
        iso: 1,
        version: 1,
    }
}

#[test]
fn question_16_number_count() {
    // the last has the lower 16 bits of 6
    for count in (0..=3_100).chain([3_600, 6_132, 65_536, 65_538, 196_614]) {
        let nodes = count / 6;
        let expected = match count % 6 == 0 && (1..=511).contains(&nodes) {
            true if nodes % 2 == 1 => 0,
            true => 11,
            false => 16,
        };
        assert_eq!(refusal(&summed(count)), expected, "{count}");
    }
    for (count, expected) in [(0, 16), (5, 16), (6, 0), (7, 16), (3066, 0)] {
        assert_eq!(refusal(&summed(count)), expected);
    }
    for count in [3067, 3072] {
        assert_eq!(refusal(&summed(count)), 16);
    }
}

#[test]
fn question_3_version() {
    let with_version = |version| {
        let whole = Drawing::of(&[POINT]);
        refusal(&Drawing { version, ..whole })
    };
    // some have the lower 8, 16 or 24 bits of 1 or 2
    let high = [1 << 16, 1 << 24, 1 << 31, 1 << 8, u32::MAX - 3];
    let wide = high.into_iter().flat_map(|high| high - 1..=high + 3);
    for version in (0..=70_000).chain(wide) {
        let expected = if [1, 2].contains(&version) { 0 } else { 3 };
        assert_eq!(with_version(version), expected, "{version}");
    }
}

#[test]
fn question_5_iso() {
    let with_iso = |iso| {
        let whole = Drawing::of(&[POINT]);
        refusal(&Drawing { iso, ..whole })
    };
    for iso in 0..=70_000 {
        let expected = if (1..=4096).contains(&iso) { 0 } else { 5 };
        assert_eq!(with_iso(iso), expected, "{iso}");
    }
    for iso in [1 << 16, 1 << 24, 1 << 31, u32::MAX - 4095, u32::MAX] {
        assert_eq!(with_iso(iso), 5);
        assert_eq!(with_iso(iso.wrapping_add(1) | 1 << 31), 5);
    }
}

#[test]
fn question_6_kind() {
    for kind in (-70_000..=70_000).chain(NUMBERS) {
        let alone = match kind {
            1 => 0,
            2..=5 => 7,
            _ => 6,
        };
        assert_eq!(of_nodes(&[point_with(0, kind)]), alone, "{kind}");
        let joined = match kind {
            1 => 8,
            2..=5 => 0,
            _ => 6,
        };
        assert_eq!(of_nodes(&[POINT, POINT, operator(kind)]), joined, "{kind}");
    }
}

#[test]
fn question_7_an_operators_other_numbers() {
    for kind in OPERATORS {
        for at in 1..6 {
            for number in (-600..=600).chain(NUMBERS) {
                let mut six = operator(kind);
                six[at] = number;
                let expected = if number == 0 { 0 } else { 7 };
                assert_eq!(of_nodes(&[POINT, POINT, six]), expected, "{six:?}");
            }
        }
    }
}

/// The refusal number of one node, by the archive alone.
fn of_node(six: Six) -> u32 {
    let mut buffer = [0; 24];
    match entries::write(&six, 1, 1, &mut buffer, 0) {
        65_560 => 0,
        number => number,
    }
}

#[test]
fn question_8_a_points_numbers() {
    let ranges = [
        (1, 1..=1024),
        (2, -2047..=2047),
        (3, -2047..=2047),
        (4, -2047..=2047),
        (5, -4096..=4096),
    ];
    for (at, range) in ranges {
        for number in -140_000..=140_000 {
            let expected = if range.contains(&number) { 0 } else { 8 };
            assert_eq!(of_node(point_with(at, number)), expected, "{at} {number}");
        }
        let (first, last) = (*range.start(), *range.end());
        let higher = [65_536, -65_536, 1 << 24, i32::MIN];
        let ends = [first - 1, first, last, last + 1];
        let wide = ends
            .map(|end| higher.map(|more| more + end.max(0)))
            .concat();
        for number in NUMBERS.into_iter().chain(ends).chain(wide) {
            let expected = if range.contains(&number) { 0 } else { 8 };
            assert_eq!(of_nodes(&[point_with(at, number)]), expected, "{number}");
        }
    }
}

#[test]
fn numbers_that_only_32_bits_tell_apart() {
    assert_eq!(of_nodes(&[point_with(0, 257)]), 6);
    assert_eq!(of_nodes(&[point_with(1, 65_537)]), 8);
    for at in 2..5 {
        assert_eq!(of_nodes(&[point_with(at, 65_536)]), 8);
    }
    assert_eq!(of_nodes(&[point_with(5, -65_536)]), 8);
    for kind in OPERATORS {
        let six = [kind, 0, 0, 0, 0, 65_536];
        assert_eq!(of_nodes(&[POINT, POINT, six]), 7);
    }
}

/// So many points held before as many operators less one.
fn deep(points: usize) -> Vec<Six> {
    let operators = (1..points).map(|i| operator(OPERATORS[i % 4]));
    vec![POINT; points].into_iter().chain(operators).collect()
}

#[test]
fn questions_9_to_11_values_held() {
    for kind in OPERATORS {
        let join = operator(kind);
        assert_eq!(of_nodes(&[join]), 9);
        assert_eq!(of_nodes(&[POINT, join]), 9);
        assert_eq!(of_nodes(&[POINT, join, POINT]), 9);
        assert_eq!(of_nodes(&[POINT, POINT, join, join]), 9);
        assert_eq!(of_nodes(&[POINT, POINT, join]), 0);
    }
    assert_eq!(of_nodes(&deep(64)), 0);
    assert_eq!(of_nodes(&deep(65)), 10);
    let again = [
        vec![POINT; 64],
        vec![operator(3), POINT],
        vec![operator(3); 63],
    ]
    .concat();
    assert_eq!(of_nodes(&again), 0);
    let over = [vec![POINT; 64], vec![operator(3), POINT, POINT]].concat();
    assert_eq!(of_nodes(&over), 10);
    for held in 1..=64 {
        let expected = if held == 1 { 0 } else { 11 };
        assert_eq!(of_nodes(&vec![POINT; held]), expected);
    }
}

/// Every number's two bytes, at its least, at its greatest and between them.
#[test]
fn the_bytes_of_a_point() {
    let drawing = Drawing {
        numbers: vec![1, 1024, -2047, 2047, -1, -4096],
        iso: 4096,
        version: 2,
    };
    let bytes = [
        1, 0, 0, 4, 1, 0xf8, 0xff, 7, 0xff, 0xff, 0, 0xf0, 0, 16, 2, 0, 24, 0, 0, 0, 0x54, 0x52,
        0x45, 0x45,
    ];
    assert_eq!(write(&drawing, &[9; 24], 0), Ok(bytes.to_vec()));
    let k = Drawing::of(&[[1, 512, 0, 0, 0, 4]]);
    let file = [
        1, 0, 0, 2, 0, 0, 0, 0, 0, 0, 4, 0, 1, 0, 1, 0, 24, 0, 0, 0, 0x54, 0x52, 0x45, 0x45,
    ];
    assert_eq!(write(&k, &[9; 24], 0), Ok(file.to_vec()));
}
