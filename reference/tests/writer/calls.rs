//! Writes and reads, each compared with the reference: the number, every byte of
//! the buffer or number of the array and around it, and what is handed over,
//! which stays as it was. They answer the reference's answer.

use crate::drawings::Drawing;
use crate::entries;
use crate::expected::{read_number, write_number};
use crate::guards::{in_guards, GUARD};
use reference::write::{self, MOST_NUMBERS, NODE_NUMBERS};

/// A write of numbers, an iso-value and a version, into a buffer from a place on.
type Write = fn(&[i32], u32, u32, &mut [u8], usize) -> u32;

/// A write into a buffer with these contents: its bytes up to the place
/// answered, or the refusal number. Of a write that is not refused, what was
/// written is read back.
pub fn write(drawing: &Drawing, contents: &[u8], place: usize) -> Result<Vec<u8>, u32> {
    let given = drawing.clone();
    let filled = |buffer: &mut [u8], call: Write| {
        buffer.copy_from_slice(contents);
        call(&given.numbers, given.iso, given.version, buffer, place)
    };
    let (number, bytes) = in_guards(contents.len(), |b| filled(b, entries::write));
    let (right, expected) = in_guards(contents.len(), |b| filled(b, write_number));
    let request = || format!("place {place}, room {}, {drawing:?}", contents.len());
    assert_eq!(number, right, "{}", request());
    assert!(bytes == expected, "{}", request());
    assert_eq!(given, *drawing);
    if number < 65_536 {
        return Err(number);
    }
    let end = number as usize - 65_536;
    let file = &bytes[GUARD..GUARD + end];
    assert_eq!(end, place + drawing.bytes());
    assert_read_back(drawing, file);
    assert_written_again(drawing, &file[place..]);
    Ok(file.to_vec())
}

/// What the archive's check and its reader of nodes make of the bytes is what
/// was given.
fn assert_read_back(drawing: &Drawing, file: &[u8]) {
    let nodes = drawing.numbers.len() / NODE_NUMBERS;
    let version = u64::from(drawing.version);
    let number = (version << 32) + (nodes << 16) as u64 + u64::from(drawing.iso);
    assert_eq!(entries::check(file), number);
    let (found, numbers) = in_guard_numbers(|n| entries::read(file, n));
    let (_, expected) =
        in_guard_numbers(|n| n[..drawing.numbers.len()].copy_from_slice(&drawing.numbers));
    assert_eq!(found, number);
    assert!(numbers == expected, "{drawing:?}");
}

/// Writing at place 0 what is read of a file without leading bytes gives that
/// file.
fn assert_written_again(drawing: &Drawing, file: &[u8]) {
    let mut numbers = [0; MOST_NUMBERS];
    let number = entries::read(file, &mut numbers);
    let (nodes, iso) = ((number >> 16) as usize & 0xffff, number as u32 & 0xffff);
    let version = (number >> 32) as u32;
    let mut again = vec![0xee; file.len()];
    let given = &numbers[..NODE_NUMBERS * nodes];
    let end = entries::write(given, iso, version, &mut again, 0);
    assert_eq!(end as usize, 65_536 + file.len());
    assert!(again == file, "{drawing:?}");
}

/// What `call` answers, handed an array for the most numbers, and the array it
/// leaves with the guard numbers around it. No number is a node's beforehand.
fn in_guard_numbers<T>(call: impl FnOnce(&mut [i32; MOST_NUMBERS]) -> T) -> (T, Vec<i32>) {
    let all = GUARD + MOST_NUMBERS + GUARD;
    let mut numbers: Vec<i32> = (0..all).map(|i| -1_000_000 - i as i32).collect();
    let array = &mut numbers[GUARD..GUARD + MOST_NUMBERS];
    let answer = call(array.try_into().expect("so many"));
    (answer, numbers)
}

/// A read of a file: its iso-value, its version and its nodes' numbers, or the
/// refusal number.
pub fn read(file: &[u8]) -> Result<(u16, u16, Vec<i32>), u32> {
    let copy = file.to_vec();
    let (number, found) = in_guard_numbers(|n| entries::read(&copy, n));
    let (right, expected) = in_guard_numbers(|n| read_number(file, n));
    assert_eq!(number, right, "{file:?}");
    assert_eq!(number, entries::check(&copy), "{file:?}");
    assert!(found == expected, "{file:?}");
    assert_eq!(copy, file);
    write::read(file)
}
