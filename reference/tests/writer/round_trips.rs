//! Files read and written again.

use crate::calls::{read, write};
use crate::drawings::Drawing;
use crate::requests::GROUPS;
use reference::generate::{part_of_form, SplitMix64, FORMS};
use reference::part::FileBuilder;
use std::fs;
use std::path::Path;

/// Bytes that look like records and a trailer, so many.
fn leading(count: usize) -> Vec<u8> {
    let file = FileBuilder::new(2).point(9, [8, 7, 6], 5).build();
    file.into_iter().cycle().take(count).collect()
}

/// Reads a file with these leading bytes and writes it: at place 0 the bytes
/// from the first record on, after the same leading bytes the whole file.
fn assert_round_trip(file: &[u8], leading: &[u8]) {
    let with_leading = [leading, file].concat();
    let (iso, version, numbers) = read(&with_leading).expect("accepted");
    let drawing = Drawing {
        numbers,
        iso: iso.into(),
        version: version.into(),
    };
    let written = write(&drawing, &vec![0xc3; file.len() + 40], 0);
    assert_eq!(written.as_deref(), Ok(file));
    let mut contents = vec![0xc3; with_leading.len()];
    contents[..leading.len()].copy_from_slice(leading);
    let written = write(&drawing, &contents, leading.len());
    assert_eq!(written, Ok(with_leading));
}

#[test]
fn every_part_of_the_examples() {
    let folder = Path::new(env!("CARGO_MANIFEST_DIR")).join("../examples/parts");
    let mut parts = 0;
    for entry in fs::read_dir(folder).expect("the parts") {
        let file = fs::read(entry.expect("an entry").path()).expect("a part");
        let to_most = 65_536 - file.len();
        for count in [0, 1, 11, 12, 24, 100, 6_144, to_most] {
            assert_round_trip(&file, &leading(count));
        }
        parts += 1;
    }
    assert_eq!(parts, 8);
}

#[test]
fn generated_parts() {
    let mut random = SplitMix64::new(153);
    for i in 0..2_000 {
        let (_, shape) = GROUPS[i % GROUPS.len()];
        let part = part_of_form(&mut random, &shape, FORMS[i / 10 % 4]);
        let file = FileBuilder::from(&part).build();
        let count = random.pick(&[0, 0, 1, 12, 30, 500]);
        assert_round_trip(&file, &leading(count));
    }
}
