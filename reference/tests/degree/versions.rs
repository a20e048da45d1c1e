//! Every version of a file at each entry, and a reader of the first form.

use crate::calls::CALLS;
use crate::entries;
use crate::expected::check_number;
use crate::requests::{file, GROUPS};
use crate::worked::AXIS;
use reference::generate::{fault, part_of_form, random_bytes, random_records};
use reference::generate::{SplitMix64, FORMS};
use reference::part::{read_first_form, FileBuilder, FILE_MARK};
use reference::totals::Totals;
use reference::write::MOST_NUMBERS;
use std::collections::BTreeMap;

fn k(version: u16) -> FileBuilder {
    FileBuilder::new(1).version(version).point(512, [0; 3], 4)
}

/// Each entry's number, and that a refused call changed nothing lent. The counted calls
/// add one to the casts or to the refusals.
fn assert_at_each_entry(file: &[u8], refused: bool) {
    let right = |number: u64| (number == 3) == refused && (number > 65_535) != refused;
    let (mut numbers, mut bounds) = ([9; MOST_NUMBERS], [9; 2]);
    assert!(right(entries::check(file)));
    assert!(right(entries::read(file, &mut numbers)));
    let at_place = entries::place_bounds(file, [1, 2, 3], &mut bounds);
    assert!(right(at_place.into()));
    assert_eq!(numbers[..6] == [9; 6] && bounds == [9; 2], refused);
    for call in CALLS {
        let mut buffer = [9; 1024];
        let lent = &mut buffer[..call.need()];
        assert!(right(call.plain(file, &AXIS, 2052, lent)), "{call:?}");
        assert!(!refused || buffer == [9; 1024], "{call:?}");
        let counted = call.of_archive(file, &AXIS, 2052, call.need(), Totals::default());
        assert!(right(counted.number), "{call:?}");
        let Totals {
            casts, refusals, ..
        } = counted.totals;
        assert_eq!([casts, refusals], [!refused, refused].map(u64::from));
    }
}

/// Versions 1 and 2 are accepted, all others refused by 3. Of mistaken readers, which
/// take every version from 2 on, its lower byte or its lower two bits for the degree,
/// so many versions tell.
#[test]
fn every_version() {
    let mistaken: [fn(u16) -> bool; 3] = [
        |version| version >= 1,
        |version| (1..=2).contains(&(version & 0xff)),
        |version| (1..=2).contains(&(version & 3)),
    ];
    let mut told = [0; 3];
    for version in 0..=65_535 {
        let accepted = version == 1 || version == 2;
        let file = k(version).build();
        assert_at_each_entry(&file, !accepted);
        let by_archive = entries::check(&file) != 3;
        told = [0, 1, 2].map(|i| told[i] + u32::from(mistaken[i](version) != by_archive));
    }
    assert_eq!(told, [65_533, 2 * 255, 2 * 16_384 - 2]);
}

/// A fault of 1 or 2 comes before a wrong version, and this before the others.
#[test]
fn the_order_of_the_questions() {
    for question in 1..=11 {
        for version in [0, 1, 2, 3, 257, 258, 65_535] {
            let file = fault(k(7), question).version(version).build();
            let wrong = ![1, 2].contains(&version);
            let expected = match question {
                3 if !wrong => continue,
                4.. if wrong => 3,
                _ => question,
            };
            assert_eq!(
                entries::check(&file),
                expected.into(),
                "{question} {version}"
            );
        }
    }
}

/// Whether a file passes questions 1 and 2 and has version 2.
fn is_version_2(file: &[u8]) -> bool {
    (24..=65_536).contains(&file.len())
        && file.ends_with(&FILE_MARK)
        && file[file.len() - 10..][..2] == [2, 0]
}

/// The number of a reader of the first form.
fn first_form_number(file: &[u8]) -> u64 {
    match read_first_form(file) {
        Ok(part) => (1 << 32) + (part.nodes.len() << 16) as u64 + u64::from(part.iso),
        Err(number) => number.into(),
    }
}

/// On any file; its class.
fn assert_first_form(file: &[u8]) -> String {
    let (first, number) = (first_form_number(file), entries::check(file));
    assert_eq!(number, check_number(file), "{file:?}");
    let version_2 = is_version_2(file);
    let expected = if version_2 { 3 } else { number };
    assert_eq!(first, expected, "{file:?}");
    match number >> 16 {
        0 => format!("version 2 {version_2}, refused {number}"),
        _ => format!("version 2 {version_2}, accepted"),
    }
}

/// A reader of the first form refuses every file of version 2 by 3, and answers as the
/// archive does to all others.
#[test]
fn a_reader_of_the_first_form() {
    let mut random = SplitMix64::new(304);
    let mut classes: BTreeMap<String, u32> = BTreeMap::new();
    for i in 0..20_000 {
        let (_, shape) = GROUPS[i % 6];
        let part = part_of_form(&mut random, &shape, FORMS[i / 10 % 4]);
        let file = match i % 4 {
            0 => fault(FileBuilder::from(&part), random.between(1, 11) as u32).build(),
            1 => random.pick(&[random_bytes, random_records])(&mut random),
            _ => file(&mut random, &part),
        };
        *classes.entry(assert_first_form(&file)).or_default() += 1;
    }
    println!("{classes:#?}");
    for version_2 in [false, true] {
        let of = |class: &str| classes[&format!("version 2 {version_2}, {class}")];
        assert!(of("accepted") >= 3_000);
        let asked = if version_2 { 4..=11 } else { 1..=11 };
        let mut refusals = asked.map(|number| of(&format!("refused {number}")));
        assert!(refusals.all(|count| count >= 50));
    }
}
