//! The ray lister's input and its text for the bytes of its standard input.

use crate::cast::{full_cast, FullCast, NOT_LOOKED_AT};
use crate::field::Ray;

/// Bytes before the file: six coordinates and the budget.
const HEAD: usize = 14;

/// The input of a ray, a budget and a file. Coordinates lose all but their
/// low 16 bits.
pub fn input(ray: &Ray, budget: u16, file: &[u8]) -> Vec<u8> {
    let mut bytes = Vec::new();
    for c in ray.a.iter().chain(&ray.b) {
        bytes.extend_from_slice(&(*c as i16).to_le_bytes());
    }
    bytes.extend_from_slice(&budget.to_le_bytes());
    bytes.extend_from_slice(file);
    bytes
}

/// What the ray lister prints for `input`.
pub fn list(input: &[u8]) -> String {
    let (head, file) = match input.split_at_checked(HEAD) {
        Some(parts) => parts,
        None => (&[0u8; HEAD][..], &[][..]),
    };
    let number = |i: usize| i32::from(i16::from_le_bytes([head[2 * i], head[2 * i + 1]]));
    let ray = Ray {
        a: [number(0), number(1), number(2)],
        b: [number(3), number(4), number(5)],
    };
    let budget = u32::from(u16::from_le_bytes([head[12], head[13]]));
    let mut marks = [NOT_LOOKED_AT; 1024];
    let end = match full_cast(file, &ray, budget, &mut marks) {
        FullCast::Refused(number) => return format!("refused {number}\n"),
        FullCast::Complete { probes } => format!("probes {probes} complete\n"),
        FullCast::Spent { probes, tick } => format!("probes {probes} spent {tick}\n"),
    };
    runs(&marks) + &end
}

/// One line for each run of equal marks; ticks not looked at make none.
fn runs(marks: &[u8]) -> String {
    let mut text = String::new();
    let mut first = 0;
    for run in marks.chunk_by(|left, right| left == right) {
        let after = first + run.len();
        let word = match run.first() {
            Some(0) => "empty",
            Some(1) => "crossing",
            Some(2) => "inside",
            _ => "",
        };
        if !word.is_empty() {
            text.push_str(&format!("{word} {first} {after}\n"));
        }
        first = after;
    }
    text
}
