//! What no host in C needs, through the entries of `crates/testhost`: the calls
//! that are handed the totals as a record, at their limits and in sequences, saved
//! records read into such a record, and the viewer's answer with its place as a
//! float.

#[path = "common/calls.rs"]
mod calls;
#[path = "common/coverage.rs"]
mod coverage;
#[path = "common/expected.rs"]
mod expected;
#[path = "common/floats.rs"]
mod floats;
#[path = "common/guards.rs"]
mod guards;
#[path = "common/limits.rs"]
mod limits;
#[path = "common/requests.rs"]
mod requests;
#[path = "common/saved.rs"]
mod saved;
#[path = "common/sequences.rs"]
mod sequences;
#[path = "common/worked.rs"]
mod worked;

#[cfg(not(test_archive))]
compile_error!(
    "target/staticlib/libtesthost.a is missing: build it at the repository's root by: ./build staticlib/libtesthost.a staticlib testhost"
);

use calls::{Call, Request};
use coverage::Coverage;
use expected::{answered, number_and_place};
use guards::{in_guards, lent};
use limits::assert_each_limit;
use reference::field::Ray;
use reference::generate::{self, SplitMix64};
use reference::totals::Totals;
use reference::view::{viewer_first_hit, ViewRay};
use saved::{assert_drawn, assert_listed};
use sequences::{assert_from_every_start, assert_with_saved_records};

#[link(name = "testhost", kind = "static")]
extern "C" {
    fn testhost_call(
        file: *const u8,
        file_len: usize,
        which: u32,
        ax: i32,
        ay: i32,
        az: i32,
        bx: i32,
        by: i32,
        bz: i32,
        budget: u32,
        buffer: *mut u8,
        buffer_len: usize,
        totals: *mut u64,
    ) -> u64;

    fn testhost_view(
        file: *const u8,
        file_len: usize,
        ax: f32,
        ay: f32,
        az: f32,
        bx: f32,
        by: f32,
        bz: f32,
        budget: u32,
        place: *mut f32,
        totals: *mut u64,
    ) -> u64;

    fn testhost_restore(saved: *const u8, saved_len: usize, totals: *mut u64) -> u32;
}

/// What k counts in a number.
const CASE: u64 = 4_294_967_296;

/// The number of a full cast if `which` is 0, of a first hit if it is 1, of a
/// column if it is 2, else of a marching cast.
fn call(
    file: &[u8],
    which: u32,
    ray: &Ray,
    budget: u32,
    buffer: &mut [u8],
    totals: &mut [u64; 3],
) -> u64 {
    let ([ax, ay, az], [bx, by, bz]) = (ray.a, ray.b);
    let (at, len) = (file.as_ptr(), file.len());
    let (to, room) = (buffer.as_mut_ptr(), buffer.len());
    let sums = totals.as_mut_ptr();
    // SAFETY: all three pointers are valid for their lengths and do not overlap.
    unsafe {
        testhost_call(
            at, len, which, ax, ay, az, bx, by, bz, budget, to, room, sums,
        )
    }
}

/// The number of a viewer's first hit, k * 2^32 + probes, and its place.
fn view(file: &[u8], ray: &ViewRay, budget: u32, totals: &mut [u64; 3]) -> (u64, f32) {
    let ([ax, ay, az], [bx, by, bz]) = (ray.a, ray.b);
    let (at, len) = (file.as_ptr(), file.len());
    let mut place = [f32::NAN];
    let (to, sums) = (place.as_mut_ptr(), totals.as_mut_ptr());
    // SAFETY: all three pointers are valid for their lengths and do not overlap.
    let number = unsafe { testhost_view(at, len, ax, ay, az, bx, by, bz, budget, to, sums) };
    (number, place[0])
}

/// The number of a saved record.
fn restore(saved: &[u8], totals: &mut [u64; 3]) -> u32 {
    let sums = totals.as_mut_ptr();
    // SAFETY: both pointers are valid for their lengths and do not overlap.
    unsafe { testhost_restore(saved.as_ptr(), saved.len(), sums) }
}

/// Compares a call on a ray in steps; its number, and its probes or `None` if
/// refused.
fn compare_call(
    file: &[u8],
    which: u32,
    ray: &Ray,
    budget: u32,
    room: usize,
    totals: &mut Totals,
) -> (u64, Option<u32>) {
    let (found, after) = lent(*totals, |t| {
        in_guards(room, |b| call(file, which, ray, budget, b, t))
    });
    let ((number, probes), bytes) = in_guards(room, |b| answered(file, which, ray, budget, b));
    *totals = totals.after(probes);
    let request = || format!("{which} {ray:?} {budget} {room} {file:?}");
    assert_eq!(found, (number, bytes), "{}", request());
    assert_eq!(after, *totals, "{}", request());
    (number, probes)
}

/// Compares a viewer's first hit; its number, and its probes or `None` if refused.
fn compare_view(
    file: &[u8],
    ray: &ViewRay,
    budget: u32,
    totals: &mut Totals,
) -> (u64, Option<u32>) {
    let ((number, place), after) = lent(*totals, |t| view(file, ray, budget, t));
    let answer = viewer_first_hit(file, *ray, budget);
    let (with_tick, expected) = number_and_place(answer);
    let (k, probes) = (with_tick / CASE, with_tick % 65_536);
    *totals = totals.after(answer.probes());
    let request = || format!("{ray:?} {budget} {file:?}");
    assert_eq!(number, k * CASE + probes, "{}", request());
    assert_eq!(place.to_bits(), expected.to_bits(), "{}", request());
    assert_eq!(after, *totals, "{}", request());
    (number, answer.probes())
}

/// Compares a call with the reference; its number, and its probes or `None` if
/// refused.
fn compare(request: &Request, totals: &mut Totals) -> (u64, Option<u32>) {
    let (file, budget) = (&request.file, request.budget);
    match &request.call {
        Call::Steps { which, ray, room } => compare_call(file, *which, ray, budget, *room, totals),
        Call::View(ray) => compare_view(file, ray, budget, totals),
    }
}

/// Those probes alone.
fn compare_probes(request: &Request, totals: &mut Totals) -> Option<u32> {
    compare(request, totals).1
}

/// Drawn calls, each with drawn totals; the viewer's by k, 0 if refused.
#[test]
fn the_record_and_the_place_are_the_references() {
    let mut random = SplitMix64::new(141);
    let mut coverage = Coverage::default();
    let mut views = [0; 5];
    for _ in 0..20_000 {
        let request = Request::new(&mut random);
        let before = generate::totals(&mut random);
        let mut totals = before;
        let (number, probes) = compare(&request, &mut totals);
        coverage.count(&request, before, probes);
        if let Call::View(_) = request.call {
            views[(number / CASE) as usize] += 1;
        }
    }
    println!("viewer's by k: {views:?}");
    assert!(views.iter().all(|&n| n > 200));
    coverage.assert_populated([300, 4, 600, 4, 4]);
}

#[test]
fn each_call_at_each_limit() {
    assert_each_limit(compare_probes);
}

#[test]
fn calls_from_every_start() {
    assert_from_every_start(compare_probes, 145);
}

#[test]
fn saved_records_among_the_calls() {
    assert_with_saved_records(compare_probes, restore, 144);
}

#[test]
fn saved_records_are_read_into_the_record() {
    assert_listed(restore);
    assert_drawn(restore, 142);
}
