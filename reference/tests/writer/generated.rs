//! Generated drawings, whole and damaged, written at all kinds of places over
//! contents that look like records and trailers. What was covered is counted,
//! printed and asserted.

use crate::calls::write;
use crate::drawings::{damaged, placed, Drawing};
use crate::entries;
use crate::requests::{ray, GROUPS};
use reference::cast;
use reference::generate::{cancelling_or_bored, part_of_form, random_records};
use reference::generate::{SplitMix64, FORMS};
use reference::part::{self, FileBuilder, Part};
use reference::write;
use std::collections::BTreeMap;

/// How many drawings are written.
const DRAWINGS: usize = 20_000;

/// Classes, and how often each must have come at least.
const CLASSES: [(&str, u32); 23] = [
    ("refused 3", 500),
    ("refused 5", 500),
    ("refused 6", 500),
    ("refused 7", 500),
    ("refused 8", 500),
    ("refused 9", 500),
    ("refused 10", 150),
    ("refused 11", 250),
    ("refused 16", 500),
    ("refused 17", 2_000),
    ("written at place 0", 1_500),
    ("written elsewhere", 1_500),
    ("written to the buffer's end", 1_500),
    ("written to byte 65,536", 400),
    ("written, damaged", 400),
    ("written with version 1", 3_000),
    ("written with version 2", 3_000),
    ("511 nodes written", 50),
    ("over one byte repeated", 500),
    ("over random bytes", 500),
    ("over records", 500),
    ("over trailers", 500),
    ("cast", 500),
];

/// What a buffer holds before a write, by its kind.
const CONTENTS: [&str; 4] = ["one byte repeated", "random bytes", "records", "trailers"];

#[derive(Default)]
struct Coverage(BTreeMap<String, u32>);

impl Coverage {
    fn count(&mut self, class: impl ToString) {
        *self.0.entry(class.to_string()).or_default() += 1;
    }

    fn assert_populated(&self) {
        println!("{:#?}", self.0);
        for (class, least) in CLASSES {
            let count = self.0.get(class).copied().unwrap_or_default();
            assert!(count >= least, "{class}: {count}");
        }
    }
}

/// A part of one of the groups, or one that nearly cancels or is bored.
fn drawn_part(random: &mut SplitMix64, i: usize) -> Part {
    match GROUPS.get(i % (GROUPS.len() + 1)) {
        Some((_, shape)) => part_of_form(random, shape, FORMS[i / 10 % 4]),
        None => cancelling_or_bored(random),
    }
}

/// So many bytes of a kind of `CONTENTS`: a piece, repeated, from any of its
/// bytes on. Those of trailers are right for the drawing's records.
fn contents(random: &mut SplitMix64, kind: usize, drawing: &Drawing, room: usize) -> Vec<u8> {
    let distance = drawing.bytes() as u32;
    let piece = match kind {
        0 => vec![random.next_u64() as u8],
        1 => (0..1009).map(|_| random.next_u64() as u8).collect(),
        2 => random_records(random),
        _ => FileBuilder::new(7).distance(distance).build(),
    };
    let first = random.between(0, 1_000) as usize;
    (first..first + room)
        .map(|i| piece[i % piece.len()])
        .collect()
}

/// The archive's column of the bytes written is the reference's of a file that
/// the builder makes of the nodes.
fn assert_cast(random: &mut SplitMix64, drawing: &Drawing, written: &[u8]) {
    let file = write::encode(&drawing.numbers, drawing.iso, drawing.version).expect("accepted");
    let part = part::read(&file).expect("accepted");
    let ray = ray(random, &part);
    let (mut found, mut right) = ([9; 128], [9; 128]);
    let number = entries::column(written, &ray, &mut found);
    let answer = cast::column(&FileBuilder::from(&part).build(), &ray, &mut right);
    assert_eq!((number, found), (answer.number(), right), "{drawing:?}");
}

fn count_written(coverage: &mut Coverage, drawing: &Drawing, room: usize, place: usize) {
    let end = place + drawing.bytes();
    coverage.count(match place {
        0 => "written at place 0",
        _ => "written elsewhere",
    });
    let classes = [
        (end == room, "written to the buffer's end"),
        (end == 65_536, "written to byte 65,536"),
        (drawing.numbers.len() == 3066, "511 nodes written"),
    ];
    let those = classes.into_iter().filter(|(so, _)| *so);
    those.for_each(|(_, class)| coverage.count(class));
}

#[test]
fn generated_drawings() {
    let mut random = SplitMix64::new(151);
    let mut coverage = Coverage::default();
    for i in 0..DRAWINGS {
        let whole = Drawing::from(&drawn_part(&mut random, i));
        let drawing = match i % 2 {
            0 => whole.clone(),
            _ => damaged(&mut random, &whole),
        };
        let (place, room) = placed(&mut random, drawing.bytes());
        let kind = random.between(0, 3) as usize;
        let contents = contents(&mut random, kind, &drawing, room);
        let file = match write(&drawing, &contents, place) {
            Ok(file) => file,
            Err(number) => {
                coverage.count(format!("refused {number}"));
                continue;
            }
        };
        count_written(&mut coverage, &drawing, room, place);
        coverage.count(format!("over {}", CONTENTS[kind]));
        coverage.count(format!("written with version {}", drawing.version));
        if drawing != whole {
            coverage.count("written, damaged");
        }
        if random.one_in(10) {
            assert_cast(&mut random, &drawing, &file);
            coverage.count("cast");
        }
    }
    coverage.assert_populated();
}
