//! First hits on rays of the depth images of examples/host.

use crate::loads::{self, Load};
use crate::measure::{hit_times, instructions};
use crate::{mean, print_head, print_number, HIT};
use reference::field::Ray;

/// The images' axes, 145 steps long and at right angles to each other, and the way of
/// their rays, as long.
pub const RIGHT: [i32; 3] = [116, 87, 0];
pub const UP: [i32; 3] = [-60, 80, 105];
pub const AWAY: [i32; 3] = [-63, 84, -100];

/// How many times that way a ray begins before the plane through the origin and ends
/// behind it.
const TIMES: i32 = 9;

/// An image's pixels, and how many steps wide one is.
const WIDTH: i32 = 480;
const HEIGHT: i32 = 400;
const PIXEL: i32 = 5;

const PARTS: [&str; 5] = [
    "pad.part",
    "core.part",
    "core-cut.part",
    "bracket.part",
    "k.part",
];

fn rounded_quotient(number: i32, divisor: i32) -> i32 {
    (number + number.signum() * (divisor / 2)) / divisor
}

/// The ray through the middle of a pixel, as the host casts it.
fn ray(column: i32, row: i32) -> Ray {
    // half steps from the image's middle
    let right = PIXEL * (2 * column + 1 - WIDTH);
    let up = PIXEL * (HEIGHT - 1 - 2 * row);
    let middle = [0, 1, 2].map(|i| rounded_quotient(right * RIGHT[i] + up * UP[i], 2 * 145));
    let end = |times: i32| [0, 1, 2].map(|i| middle[i] + times * AWAY[i]);
    Ray {
        a: end(-TIMES),
        b: end(TIMES),
    }
}

/// One ray in a hundred of an image's: those of each tenth pixel of each tenth row.
fn rays() -> Vec<Ray> {
    let tenths = |pixels: i32| (5..pixels).step_by(10);
    let pixels = tenths(HEIGHT).flat_map(|row| tenths(WIDTH).map(move |column| (column, row)));
    pixels.map(|(column, row)| ray(column, row)).collect()
}

/// The parts that have a depth image, on rays of it.
pub fn loads() -> Vec<Load> {
    let parts = loads::parts().into_iter();
    let seen = parts.filter(|part| PARTS.contains(&part.name.as_str()));
    let load = |part: Load| {
        let mut load = part.on(rays());
        load.name += ", depth image";
        load
    };
    seen.map(load).collect()
}

/// The rays of a load that are hit, and the mean probes of its first hits.
pub fn hits_and_probes(load: &Load) -> (usize, f64) {
    let numbers = load.rays.iter().map(|ray| load.first_hit(ray, HIT.1));
    let numbers: Vec<u64> = numbers.collect();
    let hits = numbers.iter().filter(|&number| number >> 32 < 3).count();
    let probes = numbers.iter().map(|number| (number & 0xffff) as f64);
    (hits, mean(probes))
}

fn print_row(load: &Load) {
    let number = load.rays.len();
    let (hits, probes) = hits_and_probes(load);
    let [seconds] = hit_times(load, [HIT.1]);
    print!("| {} | {} |", load.name, load.points);
    print_number(Some(load.mean_in_reach()), 1);
    print!(" {number} | {hits} |");
    print_number(Some(probes), 1);
    print_number(instructions(load, HIT.0), 0);
    print_number(Some(1e6 * seconds / number as f64), 2);
    println!();
}

pub fn print() {
    let columns = [
        "Load",
        "Points",
        "In reach",
        "Rays",
        "Hit",
        "Probes",
        "Instructions",
        "Time, µs",
    ];
    print_head("First hits of the depth images", &columns);
    loads().iter().for_each(print_row);
}
