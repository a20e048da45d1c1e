//! The C entries of the archive, as `include/fenalukki.h` declares them.

#![allow(dead_code)]

#[cfg(not(archive))]
compile_error!(
    "target/staticlib/libfenalukki.a is missing: build it at the repository's root by: ./build staticlib/libfenalukki.a staticlib fenalukki"
);

use reference::field::Ray;
use reference::view::ViewRay;
use reference::write::MOST_NUMBERS;
use std::ptr::{null, null_mut};

#[link(name = "fenalukki", kind = "static")]
extern "C" {
    fn fenalukki_check(file: *const u8, file_len: usize) -> u64;

    fn fenalukki_place_bounds(
        file: *const u8,
        file_len: usize,
        x: i32,
        y: i32,
        z: i32,
        bounds: *mut i64,
    ) -> u32;

    fn fenalukki_full_cast(
        file: *const u8,
        file_len: usize,
        ax: i32,
        ay: i32,
        az: i32,
        bx: i32,
        by: i32,
        bz: i32,
        budget: u32,
        marks: *mut u8,
        marks_len: usize,
    ) -> u32;

    fn fenalukki_marching_cast(
        file: *const u8,
        file_len: usize,
        ax: i32,
        ay: i32,
        az: i32,
        bx: i32,
        by: i32,
        bz: i32,
        budget: u32,
        marks: *mut u8,
        marks_len: usize,
    ) -> u32;

    fn fenalukki_first_hit(
        file: *const u8,
        file_len: usize,
        ax: i32,
        ay: i32,
        az: i32,
        bx: i32,
        by: i32,
        bz: i32,
        budget: u32,
    ) -> u64;

    fn fenalukki_column(
        file: *const u8,
        file_len: usize,
        ax: i32,
        ay: i32,
        az: i32,
        bx: i32,
        by: i32,
        bz: i32,
        column: *mut u8,
        column_len: usize,
    ) -> u32;

    fn fenalukki_viewer_first_hit(
        file: *const u8,
        file_len: usize,
        ax: f32,
        ay: f32,
        az: f32,
        bx: f32,
        by: f32,
        bz: f32,
        budget: u32,
    ) -> u64;

    fn fenalukki_full_cast_counted(
        file: *const u8,
        file_len: usize,
        ax: i32,
        ay: i32,
        az: i32,
        bx: i32,
        by: i32,
        bz: i32,
        budget: u32,
        marks: *mut u8,
        marks_len: usize,
        totals: *mut u64,
    ) -> u32;

    fn fenalukki_marching_cast_counted(
        file: *const u8,
        file_len: usize,
        ax: i32,
        ay: i32,
        az: i32,
        bx: i32,
        by: i32,
        bz: i32,
        budget: u32,
        marks: *mut u8,
        marks_len: usize,
        totals: *mut u64,
    ) -> u32;

    fn fenalukki_first_hit_counted(
        file: *const u8,
        file_len: usize,
        ax: i32,
        ay: i32,
        az: i32,
        bx: i32,
        by: i32,
        bz: i32,
        budget: u32,
        totals: *mut u64,
    ) -> u64;

    fn fenalukki_column_counted(
        file: *const u8,
        file_len: usize,
        ax: i32,
        ay: i32,
        az: i32,
        bx: i32,
        by: i32,
        bz: i32,
        column: *mut u8,
        column_len: usize,
        totals: *mut u64,
    ) -> u32;

    fn fenalukki_viewer_first_hit_counted(
        file: *const u8,
        file_len: usize,
        ax: f32,
        ay: f32,
        az: f32,
        bx: f32,
        by: f32,
        bz: f32,
        budget: u32,
        totals: *mut u64,
    ) -> u64;

    fn fenalukki_write(
        numbers: *const i32,
        numbers_len: usize,
        iso: u32,
        version: u32,
        buffer: *mut u8,
        buffer_len: usize,
        place: usize,
    ) -> u32;

    fn fenalukki_read(file: *const u8, file_len: usize, numbers: *mut i32) -> u64;

    fn fenalukki_restore_totals(saved: *const u8, saved_len: usize, totals: *mut u64) -> u32;
}

/// The pointer of a file, of numbers or of a saved record, null where there are
/// none.
fn start<T>(items: &[T]) -> *const T {
    if items.is_empty() {
        null()
    } else {
        items.as_ptr()
    }
}

/// The buffer's pointer, null where there are no bytes.
fn start_mut(buffer: &mut [u8]) -> *mut u8 {
    if buffer.is_empty() {
        null_mut()
    } else {
        buffer.as_mut_ptr()
    }
}

/// The number of the check of a file.
pub fn check(file: &[u8]) -> u64 {
    // SAFETY: the pointer is valid for its length.
    unsafe { fenalukki_check(start(file), file.len()) }
}

/// The number of the bounds at a place.
pub fn place_bounds(file: &[u8], [x, y, z]: [i32; 3], bounds: &mut [i64; 2]) -> u32 {
    let to = bounds.as_mut_ptr();
    // SAFETY: both pointers are valid for their lengths and do not overlap.
    unsafe { fenalukki_place_bounds(start(file), file.len(), x, y, z, to) }
}

/// The number of a full cast.
pub fn full_cast(file: &[u8], ray: &Ray, budget: u32, marks: &mut [u8]) -> u32 {
    let ([ax, ay, az], [bx, by, bz]) = (ray.a, ray.b);
    let (at, len) = (start(file), file.len());
    let (to, room) = (start_mut(marks), marks.len());
    // SAFETY: both pointers are valid for their lengths and do not overlap.
    unsafe { fenalukki_full_cast(at, len, ax, ay, az, bx, by, bz, budget, to, room) }
}

/// The number of a marching cast.
pub fn marching_cast(file: &[u8], ray: &Ray, budget: u32, marks: &mut [u8]) -> u32 {
    let ([ax, ay, az], [bx, by, bz]) = (ray.a, ray.b);
    let (at, len) = (start(file), file.len());
    let (to, room) = (start_mut(marks), marks.len());
    // SAFETY: both pointers are valid for their lengths and do not overlap.
    unsafe { fenalukki_marching_cast(at, len, ax, ay, az, bx, by, bz, budget, to, room) }
}

/// The number of a first hit.
pub fn first_hit(file: &[u8], ray: &Ray, budget: u32) -> u64 {
    let ([ax, ay, az], [bx, by, bz]) = (ray.a, ray.b);
    let (at, len) = (start(file), file.len());
    // SAFETY: the pointer is valid for its length.
    unsafe { fenalukki_first_hit(at, len, ax, ay, az, bx, by, bz, budget) }
}

/// The number of a column.
pub fn column(file: &[u8], ray: &Ray, column: &mut [u8]) -> u32 {
    let ([ax, ay, az], [bx, by, bz]) = (ray.a, ray.b);
    let (at, len) = (start(file), file.len());
    let (to, room) = (start_mut(column), column.len());
    // SAFETY: both pointers are valid for their lengths and do not overlap.
    unsafe { fenalukki_column(at, len, ax, ay, az, bx, by, bz, to, room) }
}

/// The number of a viewer's first hit.
pub fn viewer_first_hit(file: &[u8], ray: &ViewRay, budget: u32) -> u64 {
    let ([ax, ay, az], [bx, by, bz]) = (ray.a, ray.b);
    let (at, len) = (start(file), file.len());
    // SAFETY: the pointer is valid for its length.
    unsafe { fenalukki_viewer_first_hit(at, len, ax, ay, az, bx, by, bz, budget) }
}

/// The number of a full cast that counts.
pub fn full_cast_counted(
    file: &[u8],
    ray: &Ray,
    budget: u32,
    marks: &mut [u8],
    totals: &mut [u64; 3],
) -> u32 {
    let ([ax, ay, az], [bx, by, bz]) = (ray.a, ray.b);
    let (at, len, sums) = (start(file), file.len(), totals.as_mut_ptr());
    let (to, room) = (start_mut(marks), marks.len());
    // SAFETY: all pointers are valid for their lengths and do not overlap.
    unsafe { fenalukki_full_cast_counted(at, len, ax, ay, az, bx, by, bz, budget, to, room, sums) }
}

/// The number of a marching cast that counts.
pub fn marching_cast_counted(
    file: &[u8],
    ray: &Ray,
    budget: u32,
    marks: &mut [u8],
    totals: &mut [u64; 3],
) -> u32 {
    let ([ax, ay, az], [bx, by, bz]) = (ray.a, ray.b);
    let (at, len, sums) = (start(file), file.len(), totals.as_mut_ptr());
    let (to, room) = (start_mut(marks), marks.len());
    // SAFETY: all pointers are valid for their lengths and do not overlap.
    unsafe {
        fenalukki_marching_cast_counted(at, len, ax, ay, az, bx, by, bz, budget, to, room, sums)
    }
}

/// The number of a first hit that counts.
pub fn first_hit_counted(file: &[u8], ray: &Ray, budget: u32, totals: &mut [u64; 3]) -> u64 {
    let ([ax, ay, az], [bx, by, bz]) = (ray.a, ray.b);
    let (at, len, sums) = (start(file), file.len(), totals.as_mut_ptr());
    // SAFETY: both pointers are valid for their lengths and do not overlap.
    unsafe { fenalukki_first_hit_counted(at, len, ax, ay, az, bx, by, bz, budget, sums) }
}

/// The number of a column that counts.
pub fn column_counted(file: &[u8], ray: &Ray, column: &mut [u8], totals: &mut [u64; 3]) -> u32 {
    let ([ax, ay, az], [bx, by, bz]) = (ray.a, ray.b);
    let (at, len, sums) = (start(file), file.len(), totals.as_mut_ptr());
    let (to, room) = (start_mut(column), column.len());
    // SAFETY: all pointers are valid for their lengths and do not overlap.
    unsafe { fenalukki_column_counted(at, len, ax, ay, az, bx, by, bz, to, room, sums) }
}

/// The number of a viewer's first hit that counts.
pub fn viewer_first_hit_counted(
    file: &[u8],
    ray: &ViewRay,
    budget: u32,
    totals: &mut [u64; 3],
) -> u64 {
    let ([ax, ay, az], [bx, by, bz]) = (ray.a, ray.b);
    let (at, len, sums) = (start(file), file.len(), totals.as_mut_ptr());
    // SAFETY: both pointers are valid for their lengths and do not overlap.
    unsafe { fenalukki_viewer_first_hit_counted(at, len, ax, ay, az, bx, by, bz, budget, sums) }
}

/// The number of a write.
pub fn write(numbers: &[i32], iso: u32, version: u32, buffer: &mut [u8], place: usize) -> u32 {
    let (at, len) = (start(numbers), numbers.len());
    let (to, room) = (start_mut(buffer), buffer.len());
    // SAFETY: both pointers are valid for their lengths and do not overlap.
    unsafe { fenalukki_write(at, len, iso, version, to, room, place) }
}

/// The number of a read.
pub fn read(file: &[u8], numbers: &mut [i32; MOST_NUMBERS]) -> u64 {
    let to = numbers.as_mut_ptr();
    // SAFETY: both pointers are valid for their lengths and do not overlap.
    unsafe { fenalukki_read(start(file), file.len(), to) }
}

/// The number of a saved record.
pub fn restore_totals(saved: &[u8], totals: &mut [u64; 3]) -> u32 {
    let sums = totals.as_mut_ptr();
    // SAFETY: both pointers are valid for their lengths and do not overlap.
    unsafe { fenalukki_restore_totals(start(saved), saved.len(), sums) }
}
