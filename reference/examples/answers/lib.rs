//! The reference's calls by the C calling convention, for `robust/fuzz.c`.
//! Parameters and numbers are those of `include/fenalukki.h`.

#[path = "../../tests/common/expected.rs"]
mod expected;

use reference::cast;
use reference::field::Ray;
use reference::march;
use reference::totals::Totals;
use reference::view::ViewRay;
use reference::write::MOST_NUMBERS;
use std::slice;

/// The bytes of a file.
///
/// # Safety
///
/// The pointer is valid for the length, or the length is 0.
unsafe fn bytes<'a>(file: *const u8, file_len: usize) -> &'a [u8] {
    match file_len {
        0 => &[],
        _ => slice::from_raw_parts(file, file_len),
    }
}

/// The bytes of a buffer.
///
/// # Safety
///
/// The pointer is valid for the length and nothing else uses the bytes, or the
/// length is 0.
unsafe fn bytes_mut<'a>(buffer: *mut u8, length: usize) -> &'a mut [u8] {
    match length {
        0 => &mut [],
        _ => slice::from_raw_parts_mut(buffer, length),
    }
}

/// The number of a full cast.
///
/// # Safety
///
/// As the header says of `fenalukki_full_cast`.
#[no_mangle]
pub unsafe extern "C" fn reference_full_cast(
    file: *const u8,
    file_len: usize,
    ax: i32,
    ay: i32,
    az: i32,
    bx: i32,
    by: i32,
    bz: i32,
    budget: u32,
    marks: *mut u8,
    marks_len: usize,
) -> u32 {
    let (a, b) = ([ax, ay, az], [bx, by, bz]);
    let marks = bytes_mut(marks, marks_len);
    cast::full_cast(bytes(file, file_len), &Ray { a, b }, budget, marks).number()
}

/// The number of a marching cast.
///
/// # Safety
///
/// As the header says of `fenalukki_marching_cast`.
#[no_mangle]
pub unsafe extern "C" fn reference_marching_cast(
    file: *const u8,
    file_len: usize,
    ax: i32,
    ay: i32,
    az: i32,
    bx: i32,
    by: i32,
    bz: i32,
    budget: u32,
    marks: *mut u8,
    marks_len: usize,
) -> u32 {
    let (a, b) = ([ax, ay, az], [bx, by, bz]);
    let marks = bytes_mut(marks, marks_len);
    march::marching_cast(bytes(file, file_len), &Ray { a, b }, budget, marks).number()
}

/// The number of a first hit.
///
/// # Safety
///
/// As the header says of `fenalukki_first_hit`.
#[no_mangle]
pub unsafe extern "C" fn reference_first_hit(
    file: *const u8,
    file_len: usize,
    ax: i32,
    ay: i32,
    az: i32,
    bx: i32,
    by: i32,
    bz: i32,
    budget: u32,
) -> u64 {
    let (a, b) = ([ax, ay, az], [bx, by, bz]);
    cast::first_hit(bytes(file, file_len), &Ray { a, b }, budget).number()
}

/// The number of a column.
///
/// # Safety
///
/// As the header says of `fenalukki_column`.
#[no_mangle]
pub unsafe extern "C" fn reference_column(
    file: *const u8,
    file_len: usize,
    ax: i32,
    ay: i32,
    az: i32,
    bx: i32,
    by: i32,
    bz: i32,
    column: *mut u8,
    column_len: usize,
) -> u32 {
    let (a, b) = ([ax, ay, az], [bx, by, bz]);
    let column = bytes_mut(column, column_len);
    cast::column(bytes(file, file_len), &Ray { a, b }, column).number()
}

/// The number of a viewer's first hit.
///
/// # Safety
///
/// As the header says of `fenalukki_viewer_first_hit`.
#[no_mangle]
pub unsafe extern "C" fn reference_viewer_first_hit(
    file: *const u8,
    file_len: usize,
    ax: f32,
    ay: f32,
    az: f32,
    bx: f32,
    by: f32,
    bz: f32,
    budget: u32,
) -> u64 {
    let (a, b) = ([ax, ay, az], [bx, by, bz]);
    expected::viewed(bytes(file, file_len), ViewRay { a, b }, budget).0
}

/// The number of the check of a file.
///
/// # Safety
///
/// As the header says of `fenalukki_check`.
#[no_mangle]
pub unsafe extern "C" fn reference_check(file: *const u8, file_len: usize) -> u64 {
    expected::check_number(bytes(file, file_len))
}

/// The number of the bounds at a place, which are given as 16 bytes.
///
/// # Safety
///
/// As the header says of `fenalukki_place_bounds`.
#[no_mangle]
pub unsafe extern "C" fn reference_place_bounds(
    file: *const u8,
    file_len: usize,
    x: i32,
    y: i32,
    z: i32,
    bounds: *mut u8,
) -> u32 {
    let bounds = bytes_mut(bounds, 16);
    expected::bounds_number(bytes(file, file_len), [x, y, z], bounds) as u32
}

/// The number of a write.
///
/// # Safety
///
/// As the header says of `fenalukki_write`.
#[no_mangle]
pub unsafe extern "C" fn reference_write(
    numbers: *const i32,
    numbers_len: usize,
    iso: u32,
    version: u32,
    buffer: *mut u8,
    buffer_len: usize,
    place: usize,
) -> u32 {
    let numbers = match numbers_len {
        0 => &[],
        _ => slice::from_raw_parts(numbers, numbers_len),
    };
    let buffer = bytes_mut(buffer, buffer_len);
    expected::write_number(numbers, iso, version, buffer, place)
}

/// The number of a read.
///
/// # Safety
///
/// As the header says of `fenalukki_read`.
#[no_mangle]
pub unsafe extern "C" fn reference_read(
    file: *const u8,
    file_len: usize,
    numbers: *mut i32,
) -> u64 {
    let numbers = slice::from_raw_parts_mut(numbers, MOST_NUMBERS);
    expected::read_number(bytes(file, file_len), numbers)
}

/// The number of a saved record.
///
/// # Safety
///
/// As the header says of `fenalukki_restore_totals`.
#[no_mangle]
pub unsafe extern "C" fn reference_restore_totals(
    saved: *const u8,
    saved_len: usize,
    totals: *mut u64,
) -> u32 {
    let three = &mut *totals.cast::<[u64; 3]>();
    let mut record = Totals::from(*three);
    let number = expected::restore_number(bytes(saved, saved_len), &mut record);
    *three = record.into();
    number
}
