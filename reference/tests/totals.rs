//! The running totals, and saved records of them.

use reference::cast::{column, first_hit, full_cast};
use reference::field::Ray;
use reference::march::marching_cast;
use reference::part::FileBuilder;
use reference::totals::{Totals, CEILING, SAVED_BYTES};
use reference::view::{viewer_first_hit, ViewRay};

fn totals(three: [u64; 3]) -> Totals {
    Totals::from(three)
}

#[test]
fn adds_and_stays_at_the_ceiling() {
    let top = 18_446_744_073_709_551_615;
    assert_eq!((CEILING, Totals::default()), (top, totals([0; 3])));
    assert_eq!(totals([1, 2, 3]).after(Some(39)), totals([2, 41, 3]));
    assert_eq!(totals([1, 2, 3]).after(Some(0)), totals([2, 2, 3]));
    assert_eq!(totals([1, 2, 3]).after(None), totals([1, 2, 4]));
    let near = totals([top - 1, top - 39, top - 1]);
    assert_eq!(near.after(Some(39)), totals([top, top, top - 1]));
    assert_eq!(near.after(Some(38)), totals([top, top - 1, top - 1]));
    assert_eq!(near.after(Some(40)), totals([top, top, top - 1]));
    assert_eq!(near.after(None), totals([top - 1, top - 39, top]));
    let full = totals([top; 3]);
    assert_eq!(full.after(Some(2047)), full);
    assert_eq!(full.after(Some(0)), full);
    assert_eq!(full.after(None), full);
    // one at the ceiling does not hold up the others
    assert_eq!(totals([top, 2, 3]).after(Some(39)), totals([top, 41, 3]));
    assert_eq!(totals([1, top, 3]).after(Some(39)), totals([2, top, 3]));
    assert_eq!(totals([1, 2, top]).after(Some(39)), totals([2, 41, top]));
}

/// 4,294,967,295, the 32-bit maximum, is a number like any other.
#[test]
fn adds_past_32_bits() {
    let top = 4_294_967_295;
    let near = totals([top, top - 39, top]);
    assert_eq!(near.after(Some(39)), totals([top + 1, top, top]));
    assert_eq!(near.after(Some(40)), totals([top + 1, top + 1, top]));
    assert_eq!(near.after(Some(2047)), totals([top + 1, top + 2008, top]));
    assert_eq!(near.after(None), totals([top, top - 39, top + 1]));
}

#[test]
fn a_saved_record_of_12_bytes_is_read() {
    let read = |saved: &[u8]| {
        let mut record = totals([7, 8, 9]);
        assert_eq!(record.restore(saved), Ok(()));
        record
    };
    let top = 4_294_967_295;
    assert_eq!(SAVED_BYTES, 12);
    assert_eq!(read(&[0; 12]), totals([0; 3]));
    assert_eq!(read(&[255; 12]), totals([top; 3]));
    let bytes = [1, 2, 3, 4, 5, 6, 7, 8, 9, 10, 11, 12];
    let numbers = [0x0403_0201, 0x0807_0605, 0x0c0b_0a09];
    assert_eq!(read(&bytes), totals(numbers));
    let bytes = [254, 255, 255, 255, 0, 0, 0, 128, 0, 1, 0, 0];
    assert_eq!(read(&bytes), totals([top - 1, 2_147_483_648, 256]));
    let on = read(&[255; 12]).after(Some(39)).after(None);
    assert_eq!(on, totals([top + 1, top + 39, top + 1]));
}

#[test]
fn a_saved_record_of_another_length_is_refused() {
    let before = totals([7, 4_294_967_296, CEILING]);
    for length in (0..100).filter(|&length| length != 12) {
        let mut record = before;
        assert_eq!(record.restore(&vec![1; length]), Err(18));
        assert_eq!(record, before);
    }
}

#[test]
fn counts_each_call() {
    let k = FileBuilder::new(1).point(512, [0; 3], 4).build();
    let ray = Ray {
        a: [-1024, 0, 0],
        b: [1024, 0, 0],
    };
    let view = ViewRay {
        a: [-16.0, 0.0, 0.0],
        b: [16.0, 0.0, 0.0],
    };
    let mut buffer = [0; 1024];
    let totals = Totals::default()
        .after(full_cast(&k, &ray, 2047, &mut buffer).probes())
        .after(full_cast(&k, &ray, 7, &mut buffer).probes())
        .after(full_cast(&k, &ray, 7, &mut []).probes())
        .after(marching_cast(&k, &ray, 2052, &mut buffer).probes())
        .after(marching_cast(&k, &ray, 8, &mut buffer).probes())
        .after(marching_cast(&k, &ray, 8, &mut []).probes())
        .after(first_hit(&k, &ray, 2047).probes())
        .after(first_hit(&[], &ray, 2047).probes())
        .after(column(&k, &ray, &mut buffer).probes())
        .after(column(&[], &ray, &mut buffer).probes())
        .after(viewer_first_hit(&k, view, 2047).probes())
        .after(viewer_first_hit(&[], view, 2047).probes());
    let expected = Totals {
        casts: 7,
        probes: 39 + 7 + 49 + 8 + 15 + 39 + 15,
        refusals: 5,
    };
    assert_eq!(totals, expected);
}
