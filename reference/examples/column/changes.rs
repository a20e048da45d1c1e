//! What columns and first hits cost before and after, by the shared libraries of an
//! earlier archive and of this one. Both answer the same and leave the same bytes.

use crate::casts::MARKS;
use crate::loads::{self, HitCall, Load, RayCall};
use crate::measure::{hit_times, instructions_by, times};
use crate::{depth, libraries, print_head, print_load, print_number, warn, ARCHIVE, HIT};
use reference::cast::COLUMN_BYTES;
use reference::field::Ray;

const COLUMNS: [RayCall; 2] = [libraries::column::<0>, libraries::column::<1>];
const CASTS: [RayCall; 2] = [libraries::full_cast::<0>, libraries::full_cast::<1>];
const MARCHES: [RayCall; 2] = [libraries::marching_cast::<0>, libraries::marching_cast::<1>];
const HITS: [HitCall; 2] = [libraries::first_hit::<0>, libraries::first_hit::<1>];

/// The paths of the libraries.
type Paths<'a> = [&'a str; 2];

/// Panics unless both calls answer the same and leave the same bytes.
fn compare<const BYTES: usize>(load: &Load, ray: &Ray, calls: [RayCall; 2]) {
    let [before, after] = calls.map(|call| load.fill::<BYTES>(ray, call));
    assert_eq!(before, after, "{} {ray:?}", load.name);
}

/// Compares a column, a full cast, a marching cast and a first hit on each ray.
fn compare_all(load: &Load) {
    for ray in &load.rays {
        compare::<COLUMN_BYTES>(load, ray, COLUMNS);
        compare::<MARKS>(load, ray, CASTS);
        compare::<MARKS>(load, ray, MARCHES);
        let [before, after] = HITS.map(|call| load.first_hit(ray, call));
        assert_eq!(before, after, "{} {ray:?}", load.name);
    }
}

/// The last cells of a row: mean instructions and microseconds, before and after.
fn print_change(counted: [Option<f64>; 2], seconds: [f64; 2], rays: usize) {
    counted.iter().for_each(|&number| print_number(number, 0));
    print_number(counted[1].zip(counted[0]).map(|(x, y)| x / y), 2);
    let micros = seconds.map(|seconds| 1e6 * seconds / rays as f64);
    micros.iter().for_each(|&time| print_number(Some(time), 2));
    print_number(Some(micros[1] / micros[0]), 2);
    println!();
}

const CHANGE: [&str; 6] = [
    "Before",
    "After",
    "After / before",
    "Time before, µs",
    "Time after, µs",
    "Time, after / before",
];

fn print_columns(load: &Load, paths: Paths) {
    let counted = paths.map(|path| instructions_by(load, ARCHIVE.0, &[path]));
    let seconds = times::<COLUMN_BYTES, 2>(load, COLUMNS);
    print_load(load);
    print_change(counted, seconds, load.rays.len());
}

fn print_hits(load: &Load, paths: Paths) {
    let counted = paths.map(|path| instructions_by(load, HIT.0, &[path]));
    let seconds = hit_times(load, HITS);
    let (hits, probes) = depth::hits_and_probes(load);
    print!("| {} | {} |", load.name, load.points);
    print_number(Some(load.mean_in_reach()), 1);
    print!(" {} | {hits} |", load.rays.len());
    print_number(Some(probes), 1);
    print_change(counted, seconds, load.rays.len());
}

/// Makes the calls of a load by one name and by one library alone.
pub fn make(load: &Load, name: &str, library: &str) {
    libraries::open(0, library);
    if name == HIT.0 {
        load.hit_all(HITS[0]);
    } else {
        load.fill_all::<COLUMN_BYTES>(COLUMNS[0]);
    }
}

pub fn print(paths: Paths) {
    warn();
    libraries::open(0, paths[0]);
    libraries::open(1, paths[1]);
    let (loads, depths) = (loads::all(), depth::loads());
    let both = || loads.iter().chain(&depths);
    both().for_each(compare_all);
    let rays: usize = both().map(|load| load.rays.len()).sum();
    println!("Both answer the same and leave the same bytes, on {rays} rays a column, a full");
    println!(
        "cast, a marching cast and a first hit each: {} calls.",
        4 * rays
    );
    let columns = ["Load", "Points", "In reach", "Probes", "Middles"];
    print_head(
        "Columns, before and after",
        &[&columns[..], &CHANGE].concat(),
    );
    loads.iter().for_each(|load| print_columns(load, paths));
    let columns = ["Load", "Points", "In reach", "Rays", "Hit", "Probes"];
    print_head(
        "First hits, before and after",
        &[&columns[..], &CHANGE].concat(),
    );
    both().for_each(|load| print_hits(load, paths));
}
