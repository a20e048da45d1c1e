//! The archive's calls on a file as a whole.

use crate::entries;
use crate::loads::FileCall;
use reference::write::{self, MOST_NUMBERS};
use std::hint::black_box;

/// The most bytes of a part that is written.
const MOST_BYTES: usize = 6144;

/// The calls, by the names that the profiler knows them by.
pub const CALLS: [(&str, FileCall); 3] = [
    ("fenalukki_check", check),
    ("fenalukki_read", read),
    ("fenalukki_write", write),
];

fn check(file: &[u8]) {
    assert!(entries::check(file) >= 65_536);
}

fn read(file: &[u8]) {
    let mut numbers = [0; MOST_NUMBERS];
    assert!(entries::read(file, &mut numbers) >= 65_536);
    black_box(&numbers);
}

/// Writes what was read.
fn write(file: &[u8]) {
    let (iso, version, numbers) = write::read(file).expect("a part");
    let (iso, version) = (iso.into(), version.into());
    let mut buffer = [0; MOST_BYTES];
    let end = entries::write(black_box(&numbers), iso, version, &mut buffer, 0) - 65_536;
    assert_eq!(&buffer[..end as usize], file);
}
