//! How often a stream's rays have ends that coincide, by what the place is, and ends that
//! are one step apart, by looking at the rays and at the bounds at the place.

use crate::limited::grouped;
use crate::request::{casting, Request, CALLS, COLUMN, FULL_CAST, MARCH, VIEW};
use reference::cast::{bounds_at, judge, Mark, NOT_LOOKED_AT};
use reference::field::Ray;
use reference::part::read;

/// What is seen of an accepted ray; each is counted in the calls that can have it.
#[derive(Clone, Copy, PartialEq)]
enum Ends {
    /// They coincide at a place of this mark.
    At(Mark),
    /// They coincide at a crossing place, and the call is spent.
    Spent,
    /// They coincide, and a coordinate is 0 in one and minus zero in the other.
    MinusZero,
    /// They are one step apart: in x up, x down, y up and so on.
    Apart(usize),
}

const ALL: [(Ends, &str); 11] = [
    (Ends::At(Mark::Empty), "coincide, the place is empty"),
    (Ends::At(Mark::Inside), "coincide, the place is inside"),
    (Ends::At(Mark::Crossing), "coincide, the place is crossing"),
    (Ends::Spent, "the same, and the call is spent"),
    (Ends::MinusZero, "coincide as 0 and minus zero"),
    (Ends::Apart(0), "x + 1"),
    (Ends::Apart(1), "x - 1"),
    (Ends::Apart(2), "y + 1"),
    (Ends::Apart(3), "y - 1"),
    (Ends::Apart(4), "z + 1"),
    (Ends::Apart(5), "z - 1"),
];

impl Ends {
    /// Whether a call can have it.
    fn due(self, call: u8) -> bool {
        let which = casting(call);
        match self {
            Ends::Spent => which.is_some_and(|which| which != COLUMN),
            Ends::MinusZero => which == Some(VIEW),
            _ => which.is_some(),
        }
    }
}

/// Accepted requests by what is seen and by call.
#[derive(Default)]
pub struct Apart([[i64; CALLS]; ALL.len()]);

impl Apart {
    /// Counts an answered request, if it is a cast that is not refused.
    pub fn count(&mut self, request: &Request) {
        if casting(request.call).is_none() || !request.is_accepted() {
            return;
        }
        let seen = seen(request);
        for (counts, (ends, _)) in self.0.iter_mut().zip(ALL) {
            counts[usize::from(request.call)] += i64::from(seen.contains(&ends));
        }
    }

    /// The count of each in each call that can have it, and their name.
    pub fn counts(&self) -> Vec<(i64, String)> {
        let all = self.0.iter().zip(ALL).flat_map(|(counts, (ends, name))| {
            let calls = (0..CALLS).filter(move |&call| ends.due(call as u8));
            calls.map(move |call| (counts[call], format!("ends that {name}, call {call}")))
        });
        all.collect()
    }

    /// A line of the table for each.
    pub fn table(&self) -> String {
        let lines = self.0.iter().zip(ALL).map(|(counts, (_, name))| {
            let requests = grouped(counts.iter().sum());
            format!("| {name} | {requests} |\n")
        });
        lines.fold("| The ends | Requests |\n|---|---|\n".into(), |a, b| a + &b)
    }
}

/// The ray in steps.
fn steps(request: &Request) -> Ray {
    if casting(request.call) != Some(VIEW) {
        return request.steps();
    }
    let steps = |bits| (f32::from_bits(bits) * 64.0) as i32;
    let [ax, ay, az, bx, by, bz] = request.ray.map(steps);
    Ray {
        a: [ax, ay, az],
        b: [bx, by, bz],
    }
}

/// What is seen of the ray. Asserts the answer where the ends coincide.
fn seen(request: &Request) -> Vec<Ends> {
    let ray = steps(request);
    let way = ray.differences();
    if way.iter().map(|c| c.abs()).sum::<i64>() == 1 {
        let along = way.iter().position(|&c| c != 0).expect("a step");
        return vec![Ends::Apart(2 * along + usize::from(way[along] < 0))];
    }
    if ray.a != ray.b {
        return Vec::new();
    }
    let iso = read(&request.file).expect("a part").iso;
    let bounds = bounds_at(&request.file, ray.a).expect("a place");
    let mark = judge(bounds, iso);
    let is_solid = bounds.low + bounds.high >= i64::from(iso) << 33;
    let probes = probes(request.call, mark);
    let right = match casting(request.call) {
        Some(COLUMN) => is_column(request, probes, is_solid),
        Some(FULL_CAST | MARCH) => is_cast(request, probes, mark),
        _ => is_hit(request, probes, mark),
    };
    assert!(right, "{:?} of call {}", ray.a, request.call);
    let is_spent = mark == Mark::Crossing && casting(request.call) != Some(COLUMN);
    let is_spent = is_spent && request.budget < probes;
    let has_minus = (0..3).any(|i| request.ray[i] != request.ray[3 + i]);
    let others = [(is_spent, Ends::Spent), (has_minus, Ends::MinusZero)];
    let others = others.into_iter().filter(|(is, _)| *is);
    let others = others.map(|(_, ends)| ends);
    [Ends::At(mark)].into_iter().chain(others).collect()
}

/// The probes of a place of the mark.
fn probes(call: u8, mark: Mark) -> u32 {
    match (casting(call), mark) {
        (Some(MARCH), Mark::Crossing) => 2052,
        (Some(MARCH), _) => 5,
        (Some(FULL_CAST | COLUMN), Mark::Crossing) => 2047,
        (_, Mark::Crossing) => 11,
        _ => 1,
    }
}

/// All bits are the place's.
fn is_column(request: &Request, probes: u32, is_solid: bool) -> bool {
    let byte = if is_solid { 0xff } else { 0 };
    request.number == u64::from(65_536 + probes) && request.written.iter().all(|&b| b == byte)
}

/// All marks are the place's, as far as the budget goes.
fn is_cast(request: &Request, probes: u32, mark: Mark) -> bool {
    let is_spent = request.budget < probes;
    let number = match is_spent {
        true => 131_072 + request.budget,
        false => 65_536 + probes,
    };
    let of_place = |byte: &&u8| **byte == mark.byte();
    let looked_at = request.written.iter().take_while(of_place).count();
    request.number == u64::from(number)
        && (looked_at < request.written.len()) == is_spent
        && request.written[looked_at..]
            .iter()
            .all(|&byte| byte == NOT_LOOKED_AT)
}

/// The answer is of tick 0.
fn is_hit(request: &Request, probes: u32, mark: Mark) -> bool {
    let k = match mark {
        _ if request.budget < probes => 4,
        Mark::Empty => 3,
        hit => u64::from(hit.byte()),
    };
    request.number == k << 32 | u64::from(request.budget.min(probes))
}
