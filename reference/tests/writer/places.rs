//! Question 17: places and buffers on both sides of what fits.

use crate::calls::write;
use crate::drawings::{operator, Drawing, POINT};

/// Drawings of 1, 3 and 511 nodes.
fn drawings() -> [Drawing; 3] {
    [0, 1, 255].map(|joined| {
        let later = [POINT, operator(5)].repeat(joined);
        Drawing::of(&[POINT]).with(&later)
    })
}

/// Contents of a buffer of this length.
fn contents(room: usize) -> Vec<u8> {
    (0..room).map(|i| 0x80 | (i % 127) as u8).collect()
}

/// Writes, and holds the answer to what fits.
fn assert_fits(drawing: &Drawing, room: usize, place: usize) {
    let end = place.checked_add(drawing.bytes());
    let fits = end.filter(|&end| end <= room && end <= 65_536);
    let answer = write(drawing, &contents(room), place).map(|file| file.len());
    assert_eq!(answer, fits.ok_or(17), "room {room}, place {place}");
}

#[test]
fn rooms_at_place_0() {
    for drawing in drawings() {
        let need = drawing.bytes();
        for room in [
            0,
            1,
            11,
            12,
            23,
            24,
            25,
            need - 12,
            need - 1,
            need,
            need + 1,
        ] {
            assert_fits(&drawing, room, 0);
        }
        for room in [65_535, 65_536, 65_537, 70_000] {
            assert_fits(&drawing, room, 0);
        }
    }
}

#[test]
fn places_in_every_room() {
    for drawing in drawings() {
        let need = drawing.bytes();
        for room in [
            0,
            need - 1,
            need,
            need + 1,
            need + 100,
            65_535,
            65_536,
            65_537,
            70_000,
        ] {
            let last = room.saturating_sub(need);
            let to_most = 65_536 - need;
            let near = [0, 1, last.saturating_sub(1), last, last + 1, room, room + 1];
            let most = [to_most - 1, to_most, to_most + 1, 65_535, 65_536, 65_537];
            for place in near.into_iter().chain(most) {
                assert_fits(&drawing, room, place);
            }
        }
    }
}

/// The sum of place and bytes is 2^64 or a little more or less, or its lower 32
/// bits are what fits.
#[test]
fn places_that_wrap() {
    for drawing in drawings() {
        let need = drawing.bytes();
        for room in [0, need, need + 1, need + 100, 65_536, 70_000] {
            for back in (0..=26).chain(need - 13..=need + 13) {
                assert_fits(&drawing, room, usize::MAX - back);
            }
            for shift in [16, 31, 32, 48, 62, 63] {
                let high = 1usize << shift;
                for place in [high - need, high - 1, high, high + 1] {
                    assert_fits(&drawing, room, place);
                }
            }
        }
    }
}

#[test]
fn ends_about_byte_65_536() {
    for drawing in drawings() {
        let to_most = 65_536 - drawing.bytes();
        for room in [65_536, 65_537, 66_000] {
            let file = write(&drawing, &contents(room), to_most);
            assert_eq!(file.map(|file| file.len()), Ok(65_536));
            assert_eq!(write(&drawing, &contents(room), to_most + 1), Err(17));
        }
        assert_eq!(write(&drawing, &contents(65_535), to_most), Err(17));
    }
}

/// No numbers and no buffer, both by a null pointer.
#[test]
fn null_pointers() {
    let nothing = Drawing::of(&[]);
    for place in [0, 1, 65_536, usize::MAX] {
        assert_eq!(write(&nothing, &[], place), Err(16));
        assert_eq!(write(&nothing, &[7; 100], place), Err(16));
        for drawing in drawings() {
            assert_eq!(write(&drawing, &[], place), Err(17));
        }
    }
}
