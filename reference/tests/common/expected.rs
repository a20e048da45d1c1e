//! The reference's answers as the C entries give them, and a ray as the viewer
//! hands it over.

use reference::cast;
use reference::field::Ray;
use reference::march;
use reference::part;
use reference::totals::Totals;
use reference::view::{viewer_first_hit, ViewRay, ViewerHit};
use reference::write;

/// The reference's number and probes of a full cast if `which` is 0, of a first
/// hit if it is 1, of a column if it is 2, else of a marching cast.
#[allow(dead_code)]
pub fn answered(
    file: &[u8],
    which: u32,
    ray: &Ray,
    budget: u32,
    buffer: &mut [u8],
) -> (u64, Option<u32>) {
    match which {
        0 => {
            let answer = cast::full_cast(file, ray, budget, buffer);
            (u64::from(answer.number()), answer.probes())
        }
        1 => {
            let answer = cast::first_hit(file, ray, budget);
            (answer.number(), answer.probes())
        }
        2 => {
            let answer = cast::column(file, ray, buffer);
            (u64::from(answer.number()), answer.probes())
        }
        _ => {
            let answer = march::marching_cast(file, ray, budget, buffer);
            (u64::from(answer.number()), answer.probes())
        }
    }
}

/// The reference's number and probes of a viewer's first hit.
#[allow(dead_code)]
pub fn viewed(file: &[u8], ray: ViewRay, budget: u32) -> (u64, Option<u32>) {
    let answer = viewer_first_hit(file, ray, budget);
    (number_and_place(answer).0, answer.probes())
}

/// The number that the entry gives for the viewer's answer, and the answer's
/// place, or 0.
#[allow(dead_code)]
pub fn number_and_place(answer: ViewerHit) -> (u64, f32) {
    let (k, place, probes) = match answer {
        ViewerHit::Refused(number) => return (u64::from(number), 0.0),
        ViewerHit::Hit {
            entry,
            mark,
            probes,
        } => (u64::from(mark.byte()), entry, probes),
        ViewerHit::Clear { probes } => (3, 0.0, probes),
        ViewerHit::Spent { reached, probes } => (4, reached, probes),
    };
    let number = k * 4_294_967_296 + tick(place) * 65_536 + u64::from(probes);
    (number, place)
}

/// The tick that starts exactly at the place.
fn tick(place: f32) -> u64 {
    let ticks = f64::from(place) * 1024.0;
    assert_eq!(ticks, ticks.trunc());
    ticks as u64
}

/// The number of the check of a file.
#[allow(dead_code)]
pub fn check_number(file: &[u8]) -> u64 {
    match part::read(file) {
        Ok(part) => {
            let [version, iso] = [part.degree.version(), part.iso].map(u64::from);
            version * 4_294_967_296 + part.nodes.len() as u64 * 65_536 + iso
        }
        Err(number) => u64::from(number),
    }
}

/// The number of the bounds at a place, and the two bounds as 16 bytes, written
/// unless refused.
#[allow(dead_code)]
pub fn bounds_number(file: &[u8], at: [i32; 3], bytes: &mut [u8]) -> u64 {
    match cast::bounds_at(file, at) {
        Ok(bounds) => {
            bytes[..8].copy_from_slice(&bounds.low.to_le_bytes());
            bytes[8..16].copy_from_slice(&bounds.high.to_le_bytes());
            65_536
        }
        Err(number) => u64::from(number),
    }
}

/// The number of a write.
#[allow(dead_code)]
pub fn write_number(
    numbers: &[i32],
    iso: u32,
    version: u32,
    buffer: &mut [u8],
    place: usize,
) -> u32 {
    match write::write(numbers, iso, version, buffer, place) {
        Ok(end) => 65_536 + end as u32,
        Err(number) => number,
    }
}

/// The number of a read, and the nodes' numbers, written unless refused.
#[allow(dead_code)]
pub fn read_number(file: &[u8], numbers: &mut [i32]) -> u64 {
    if let Ok((_, _, right)) = write::read(file) {
        numbers[..right.len()].copy_from_slice(&right);
    }
    check_number(file)
}

/// The number of a saved record, read into the totals unless refused.
#[allow(dead_code)]
pub fn restore_number(saved: &[u8], totals: &mut Totals) -> u32 {
    match totals.restore(saved) {
        Ok(()) => 65_536,
        Err(number) => number,
    }
}
