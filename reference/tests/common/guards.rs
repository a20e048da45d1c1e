//! What is lent or handed over, between guards.

use reference::totals::Totals;

/// Guard bytes before the buffer, and as many after it.
pub const GUARD: usize = 64;

/// The three numbers before the totals, and after them.
const GUARD_TOTALS: [u64; 3] = [0x5a5a_5a5a_5a5a_5a5a; 3];

/// What `call` answers, handed a buffer of `room` bytes, and the bytes it
/// leaves, those of the guards included. No byte is a mark beforehand.
pub fn in_guards<T>(room: usize, call: impl FnOnce(&mut [u8]) -> T) -> (T, Vec<u8>) {
    let mut bytes: Vec<u8> = (0..GUARD + room + GUARD).map(|i| 0x80 | i as u8).collect();
    let answer = call(&mut bytes[GUARD..GUARD + room]);
    (answer, bytes)
}

/// What `call` answers, handed a copy of the bytes. It leaves the copy and the
/// bytes around it as they were.
#[allow(dead_code)]
pub fn handed<T>(bytes: &[u8], call: impl FnOnce(&[u8]) -> T) -> T {
    let fill = |buffer: &mut [u8]| buffer.copy_from_slice(bytes);
    let (answer, left) = in_guards(bytes.len(), |buffer| {
        fill(buffer);
        call(buffer)
    });
    assert_eq!(left, in_guards(bytes.len(), fill).1);
    answer
}

/// What `call` answers, lent the totals, and the totals it leaves. It leaves the
/// numbers around them as they were.
#[allow(dead_code)]
pub fn lent<T>(totals: Totals, call: impl FnOnce(&mut [u64; 3]) -> T) -> (T, Totals) {
    let mut words = [GUARD_TOTALS, totals.into(), GUARD_TOTALS];
    let answer = call(&mut words[1]);
    assert_eq!([words[0], words[2]], [GUARD_TOTALS; 2]);
    (answer, words[1].into())
}
