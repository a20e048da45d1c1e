//! The writer, which takes the version as well: what it writes is read back with it,
//! and it asks 16, 3, 5.

use crate::drawings::{Drawing, POINT};
use crate::entries;
use crate::requests::GROUPS;
use reference::generate::{part_of_form, SplitMix64, FORMS};
use reference::part::{read, Degree, FileBuilder, Part, DEGREES};
use reference::write::{MOST_NUMBERS, NODE_NUMBERS};

/// The bytes that the archive writes at place 0 of a buffer with room for just them.
fn written(drawing: &Drawing) -> Vec<u8> {
    let Drawing {
        numbers,
        iso,
        version,
    } = drawing;
    let mut buffer = vec![0x9b; drawing.bytes()];
    let number = entries::write(numbers, *iso, *version, &mut buffer, 0);
    assert_eq!(number as usize, 65_536 + buffer.len());
    buffer
}

/// What the archive reads of a file.
fn read_of(file: &[u8]) -> Drawing {
    let mut numbers = [0; MOST_NUMBERS];
    let number = entries::read(file, &mut numbers);
    assert_eq!(number, entries::check(file));
    let nodes = (number >> 16) as usize & 0xffff;
    Drawing {
        numbers: numbers[..NODE_NUMBERS * nodes].to_vec(),
        iso: number as u32 & 0xffff,
        version: (number >> 32) as u32,
    }
}

/// Drawn parts written with each version: the bytes are the builder's, and differ in
/// the version's lower byte alone; read back they are what was given; and writing what
/// was read gives the file.
#[test]
fn round_trips() {
    let mut random = SplitMix64::new(305);
    for i in 0..1_500 {
        let (_, shape) = GROUPS[i % GROUPS.len()];
        let part = part_of_form(&mut random, &shape, FORMS[i / 10 % 4]);
        let files = DEGREES.map(|degree| {
            let part = Part {
                degree,
                ..part.clone()
            };
            let drawing = Drawing::from(&part);
            assert_eq!(drawing.version, if degree == Degree::Four { 1 } else { 2 });
            let file = written(&drawing);
            assert_eq!(file, FileBuilder::from(&part).build());
            assert_eq!(read_of(&file), drawing);
            assert_eq!(written(&read_of(&file)), file);
            assert_eq!(read(&file), Ok(part));
            file
        });
        let [first, second] = &files;
        let others = (0..first.len()).filter(|&at| first[at] != second[at]);
        assert!(others.eq([first.len() - 10]));
    }
}

/// Version numbers beside 1 and 2, and those of which fewer bits are 1 or 2.
fn versions() -> impl Iterator<Item = u32> {
    let shifted = (2..32).flat_map(|shift| [0, 1, 2, 3].map(|low| (1 << shift) + low));
    let last = [65_535, 65_537, 65_538, u32::MAX - 2, u32::MAX - 1, u32::MAX];
    (0..=1_000).chain(shifted).chain(last)
}

/// 16 is asked before 3, 3 before 5 and 5 before the nodes and the room, whatever the
/// version.
#[test]
fn the_order_of_the_questions() {
    let counts = [
        (6, true),
        (5, false),
        (7, false),
        (0, false),
        (3_072, false),
    ];
    let isos = [
        (1, true),
        (4096, true),
        (0, false),
        (4097, false),
        (65_537, false),
    ];
    let mut accepted = 0;
    for version in versions() {
        for ((count, count_right), (iso, iso_right)) in
            counts.into_iter().flat_map(|c| isos.map(|iso| (c, iso)))
        {
            let numbers: Vec<i32> = POINT.into_iter().cycle().take(count).collect();
            for (room, point_right) in [(24, true), (23, true), (24, false), (0, false)] {
                let mut numbers = numbers.clone();
                if let (false, Some(kind)) = (point_right, numbers.first_mut()) {
                    *kind = 9;
                }
                let mut buffer = vec![0x9b; room];
                let number = entries::write(&numbers, iso, version, &mut buffer, 0);
                let expected = match (count_right, version, iso_right, point_right, room) {
                    (false, ..) => 16,
                    (_, 0 | 3.., ..) => 3,
                    (_, _, false, ..) => 5,
                    (_, _, _, false, _) => 6,
                    (.., 0..24) => 17,
                    _ => 65_560,
                };
                assert_eq!(number, expected, "{count} {version} {iso} {room}");
                assert_eq!(buffer == vec![0x9b; room], number < 65_536 || room == 0);
                accepted += u32::from(number == 65_560);
            }
        }
    }
    assert_eq!(accepted, 2 * 2);
}
