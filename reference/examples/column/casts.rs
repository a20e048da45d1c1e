//! The archive's two full casts, halving and marching, on rays that lie to a part
//! in three ways.

use crate::loads::{self, Load, RayCall};
use crate::measure::{instructions_by, times};
use crate::{entries, print_head, print_number};
use reference::cast::TICKS;
use reference::field::Ray;
use reference::part::REACH;

/// The bytes of a ray's marks.
pub const MARKS: usize = TICKS as usize;

/// The calls, by the names that the profiler knows them by.
const CALLS: [(&str, RayCall); 2] = [
    ("fenalukki_full_cast", halving),
    ("fenalukki_marching_cast", marching),
];

pub fn halving(file: &[u8], ray: &Ray, marks: &mut [u8]) -> u32 {
    entries::full_cast(file, ray, 2047, marks)
}

pub fn marching(file: &[u8], ray: &Ray, marks: &mut [u8]) -> u32 {
    entries::marching_cast(file, ray, 2052, marks)
}

const PARTS: [&str; 5] = [
    "pad.part",
    "core.part",
    "core-cut.part",
    "k.part",
    "lattice 4 x 4 x 4",
];

/// Chooses rays, told a part on its raster.
type Choice = fn(&Load) -> Vec<Ray>;

/// How the rays lie to a part.
const WAYS: [(&str, Choice); 3] = [
    ("open space", in_open_space),
    ("along the surface", along_the_surface),
    ("through", through),
];

fn marks(load: &Load, ray: &Ray) -> [u8; MARKS] {
    load.fill(ray, halving).1
}

pub fn crossing(marks: &[u8]) -> usize {
    marks.iter().filter(|&&mark| mark == 1).count()
}

/// The crossing ticks of a ray.
pub fn crossing_ticks(load: &Load, ray: &Ray) -> usize {
    crossing(&marks(load, ray))
}

/// The rays of the raster of which every tick is empty.
fn in_open_space(load: &Load) -> Vec<Ray> {
    let open = |ray: &Ray| marks(load, ray).iter().all(|&mark| mark == 0);
    load.rays.iter().copied().filter(open).collect()
}

/// The rays of the raster with a tick inside.
fn through(load: &Load) -> Vec<Ray> {
    let solid = |ray: &Ray| marks(load, ray).contains(&2);
    load.rays.iter().copied().filter(solid).collect()
}

/// For each ray of the raster that crosses the surface, the ray about its first
/// crossing tick of which most ticks are crossing.
fn along_the_surface(load: &Load) -> Vec<Ray> {
    let along = |ray: &Ray| {
        let tick = marks(load, ray).iter().position(|&mark| mark == 1)?;
        let rays = rays_about(middle(ray, tick as i32));
        rays.max_by_key(|ray| crossing_ticks(load, ray))
    };
    load.rays.iter().filter_map(along).collect()
}

/// The middle of a tick, in whole steps.
fn middle(ray: &Ray, tick: i32) -> [i32; 3] {
    let way = |i: usize| (ray.b[i] - ray.a[i]) * (2 * tick + 1) / (2 * TICKS as i32);
    [0, 1, 2].map(|i| ray.a[i] + way(i))
}

/// Rays of 24 steps about a place, in 49 directions.
fn rays_about(at: [i32; 3]) -> impl Iterator<Item = Ray> {
    // of a direction and its opposite, one is in the second half of the cube
    let cube = (63..125).map(|n| [n / 25, n / 5 % 5, n % 5].map(|c| c - 2));
    let longest = cube.filter(|way| way.iter().any(|c: &i32| c.abs() == 2));
    longest.map(move |way| {
        let end = |sign: i32| [0, 1, 2].map(|i| (at[i] + sign * 6 * way[i]).clamp(-REACH, REACH));
        Ray {
            a: end(-1),
            b: end(1),
        }
    })
}

/// The rays as an argument of this program.
fn words(rays: &[Ray]) -> String {
    let six = rays.iter().flat_map(|ray| ray.a.into_iter().chain(ray.b));
    six.map(|c| c.to_string()).collect::<Vec<_>>().join(" ")
}

fn rays(words: &str) -> Vec<Ray> {
    let numbers = words.split(' ').map(|word| word.parse().expect("a number"));
    let numbers: Vec<i32> = numbers.collect();
    let ray = |six: &[i32]| Ray {
        a: [six[0], six[1], six[2]],
        b: [six[3], six[4], six[5]],
    };
    numbers.chunks_exact(6).map(ray).collect()
}

/// Makes the casts of one name on these rays through a part.
pub fn make(load: &str, name: &str, words: &str) {
    let call = CALLS.iter().find(|(known, _)| *known == name);
    let load = loads::named(load).on(rays(words));
    load.fill_all::<MARKS>(call.expect("the name of a call").1);
}

/// The mean crossing ticks of a ray. Panics unless both casts leave the same marks.
fn mean_crossing(load: &Load) -> f64 {
    let ticks = load.rays.iter().map(|ray| {
        let [halved, marched] = CALLS.map(|(_, call)| load.fill::<MARKS>(ray, call).1);
        assert_eq!(halved, marched, "{} {ray:?}", load.name);
        crossing(&halved)
    });
    ticks.sum::<usize>() as f64 / load.rays.len() as f64
}

/// The mean instructions of each cast on the rays of a load.
fn counted(load: &Load) -> [Option<f64>; 2] {
    let words = words(&load.rays);
    CALLS.map(|(name, _)| instructions_by(load, name, &["--rays", &words]))
}

/// What both casts of loads take.
pub fn print_counted(heading: &str, loads: &[Load]) {
    print_head(heading, &["Load", "Full cast", "Marching cast"]);
    for load in loads {
        print!("| {} |", load.name);
        counted(load).iter().for_each(|&n| print_number(n, 0));
        println!();
    }
}

fn print_row(way: &str, load: &Load) {
    let number = load.rays.len();
    let mean = |(_, call): (_, RayCall)| f64::from(load.fill_all::<MARKS>(call)) / number as f64;
    let probes = CALLS.map(mean);
    let counted = counted(load);
    let seconds = times::<MARKS, 2>(load, CALLS.map(|(_, call)| call));
    print!("| {way} | {} | {number} |", load.name);
    print_number(Some(mean_crossing(load)), 1);
    probes.iter().for_each(|&n| print_number(Some(n), 1));
    print_number(Some(probes[1] / probes[0]), 2);
    counted.iter().for_each(|&n| print_number(n, 0));
    print_number(counted[1].zip(counted[0]).map(|(x, y)| x / y), 2);
    print_number(Some(seconds[1] / seconds[0]), 2);
    println!();
}

pub fn print() {
    let columns = [
        "Rays",
        "Part",
        "Number",
        "Crossing ticks",
        "Probes, halving",
        "Probes, marching",
        "Marching / halving",
        "Instructions, halving",
        "Instructions, marching",
        "Marching / halving",
        "Time, marching / halving",
    ];
    print_head("Halving and marching", &columns);
    let parts = PARTS.map(loads::named);
    for (way, choose) in WAYS {
        parts
            .iter()
            .for_each(|part| print_row(way, &part.on(choose(part))));
    }
}
