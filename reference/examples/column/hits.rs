//! What the archive's first hits cost, by the tick of the hit.

use crate::depth::{AWAY, RIGHT, UP};
use crate::loads::{self, Load};
use crate::{print_head, HIT};
use reference::field::Ray;
use std::ops::RangeInclusive;

/// How many times the way of the depth images' rays these begin before the plane through
/// the origin, and how many they end behind it.
const BEFORE: [i32; 4] = [9, 6, 3, 0];
const BEHIND: i32 = 9;

/// Steps from a ray to the next.
const APART: i32 = 50;

/// The ticks of each row.
const ROWS: [RangeInclusive<u32>; 6] = [0..=0, 1..=15, 16..=63, 64..=255, 256..=511, 512..=1023];

/// A hit: its tick, and the probes.
type Hit = (u32, u32);

/// What a hit at tick h costs at most.
fn figure(h: u32) -> u32 {
    2 * h + 11
}

/// Parallel rays, 48 by 40.
fn rays(before: i32) -> Vec<Ray> {
    let ray = |(right, up): (i32, i32)| {
        let middle = [0, 1, 2].map(|i| APART * (right * RIGHT[i] + up * UP[i]) / 145);
        let end = |times: i32| [0, 1, 2].map(|i| middle[i] + times * AWAY[i]);
        Ray {
            a: end(-before),
            b: end(BEHIND),
        }
    };
    let places = (-20..20).flat_map(|up| (-24..24).map(move |right| (right, up)));
    places.map(ray).collect()
}

/// The hits on a part. Panics where one costs more than the figure.
fn hits(part: &Load) -> Vec<Hit> {
    let numbers = part.rays.iter().map(|ray| part.first_hit(ray, HIT.1));
    let of_hits = numbers.filter(|number| number >> 32 < 3);
    let hit = |number: u64| {
        let [tick, probes] = [number >> 16, number].map(|n| n as u32 & 0xffff);
        assert!(probes <= figure(tick), "{}: {tick} {probes}", part.name);
        (tick, probes)
    };
    of_hits.map(hit).collect()
}

fn print_row(ticks: &RangeInclusive<u32>, hits: &[Hit]) {
    let probes = hits.iter().filter(|(tick, _)| ticks.contains(tick));
    let probes: Vec<u32> = probes.map(|&(_, probes)| probes).collect();
    let mean = f64::from(probes.iter().sum::<u32>()) / probes.len() as f64;
    let most = probes.iter().max().expect("a hit");
    let [first, last] = [*ticks.start(), *ticks.end()];
    print!("| {first} to {last} | {} |", probes.len());
    println!(
        " {mean:.1} | {most} | {} to {} |",
        figure(first),
        figure(last)
    );
}

pub fn print() {
    let columns = ["Ticks", "Hits", "Probes, mean", "Probes, most", "2h + 11"];
    print_head("First hits", &columns);
    let parts = loads::parts();
    let loads = BEFORE.iter().flat_map(|&before| {
        let on_rays = |part: &Load| part.on(rays(before));
        parts.iter().map(on_rays).collect::<Vec<_>>()
    });
    let all: Vec<Hit> = loads.flat_map(|load| hits(&load)).collect();
    ROWS.iter().for_each(|ticks| print_row(ticks, &all));
}
