//! Counted calls and the viewer's first hit, each compared with the reference:
//! the number, every byte of the buffer and around it, the totals and the
//! numbers around them, and the file, which stays as it was. Each counted call is
//! also compared with the plain one.

#[path = "entries.rs"]
pub mod entries;
#[path = "expected.rs"]
pub mod expected;
#[path = "guards.rs"]
pub mod guards;

use expected::{answered, number_and_place};
use guards::{in_guards, lent};
use reference::field::Ray;
use reference::totals::Totals;
use reference::view::{viewer_first_hit, ViewRay, ViewerHit};

/// The archive's number of a counted full cast if `which` is 0, of a first hit
/// if it is 1, of a column if it is 2, else of a marching cast.
fn count(
    file: &[u8],
    which: u32,
    ray: &Ray,
    budget: u32,
    buffer: &mut [u8],
    totals: &mut [u64; 3],
) -> u64 {
    match which {
        0 => entries::full_cast_counted(file, ray, budget, buffer, totals).into(),
        1 => entries::first_hit_counted(file, ray, budget, totals),
        2 => entries::column_counted(file, ray, buffer, totals).into(),
        _ => entries::marching_cast_counted(file, ray, budget, buffer, totals).into(),
    }
}

/// The archive's number of the call that does not count.
fn plain(file: &[u8], which: u32, ray: &Ray, budget: u32, buffer: &mut [u8]) -> u64 {
    match which {
        0 => entries::full_cast(file, ray, budget, buffer).into(),
        1 => entries::first_hit(file, ray, budget),
        2 => entries::column(file, ray, buffer).into(),
        _ => entries::marching_cast(file, ray, budget, buffer).into(),
    }
}

/// What the archive alone answers to a counted call on a ray in steps: the
/// number, the bytes it leaves, those of the guards included, and the totals.
#[allow(dead_code)]
pub fn called(
    file: &[u8],
    which: u32,
    ray: &Ray,
    budget: u32,
    room: usize,
    totals: Totals,
) -> (u64, Vec<u8>, Totals) {
    let ((number, bytes), after) = lent(totals, |t| {
        in_guards(room, |b| count(file, which, ray, budget, b, t))
    });
    (number, bytes, after)
}

/// What the archive alone answers to a counted viewer's first hit: the number
/// and the totals.
pub fn viewed(file: &[u8], ray: &ViewRay, budget: u32, totals: Totals) -> (u64, Totals) {
    lent(totals, |t| {
        entries::viewer_first_hit_counted(file, ray, budget, t)
    })
}

/// A counted call on a ray in steps; its probes, or `None` if refused.
#[allow(dead_code)]
pub fn call(
    file: &[u8],
    which: u32,
    ray: &Ray,
    budget: u32,
    room: usize,
    totals: &mut Totals,
) -> Option<u32> {
    let copy = file.to_vec();
    let found = called(&copy, which, ray, budget, room, *totals);
    let uncounted = in_guards(room, |b| plain(&copy, which, ray, budget, b));
    let ((number, probes), bytes) = in_guards(room, |b| answered(file, which, ray, budget, b));
    *totals = totals.after(probes);
    let request = || format!("{which} {ray:?} {budget} {room} {file:?}");
    assert_eq!(uncounted, (number, bytes.clone()), "{}", request());
    assert_eq!(found, (number, bytes, *totals), "{}", request());
    assert_eq!(copy, file);
    probes
}

/// A viewer's first hit, counted and plain. Of a ray that is not refused, the
/// number is the first hit's on the ray in steps, and its tick over 1,024 as a
/// float is the reference's place.
pub fn view(file: &[u8], ray: &ViewRay, budget: u32, totals: &mut Totals) -> ViewerHit {
    let copy = file.to_vec();
    let found = viewed(&copy, ray, budget, *totals);
    let uncounted = entries::viewer_first_hit(&copy, ray, budget);
    let answer = viewer_first_hit(file, *ray, budget);
    *totals = totals.after(answer.probes());
    let (number, place) = number_and_place(answer);
    let [a, b] = [ray.a, ray.b].map(|end| end.map(f32::to_bits));
    let request = || format!("{a:08x?} {b:08x?} {budget} {file:?}");
    assert_eq!(found, (number, *totals), "{}", request());
    assert_eq!(uncounted, number, "{}", request());
    if answer.probes().is_some() {
        let hit = entries::first_hit(&copy, &in_steps(ray), budget);
        assert_eq!(uncounted, hit, "{}", request());
        assert_eq!(place_of(uncounted).to_bits(), place.to_bits());
    }
    assert_eq!(copy, file);
    answer
}

/// The entry, or the place reached, as a host works it out.
pub fn place_of(number: u64) -> f32 {
    let tick = number >> 16 & 0xffff;
    tick as f32 / 1024.0
}

/// An accepted ray in steps, by wide floating point.
fn in_steps(ray: &ViewRay) -> Ray {
    let steps = |end: [f32; 3]| end.map(|c| (f64::from(c) * 64.0) as i32);
    Ray {
        a: steps(ray.a),
        b: steps(ray.b),
    }
}
