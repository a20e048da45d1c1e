//! What a column costs: the archive's, plain Rust's and that of samples, and of the same
//! part in both degrees; what the archive's two full casts cost, halving and marching; how many probes its
//! first hits make, by the hit's tick, and what they cost on rays of the depth
//! images; what it takes to ask about a place, by its bounds and by rays whose ends
//! coincide; and to check, read and write a file. What marks and bits
//! show of a strut thinner than a tick, and how thick walls come out. Or, by the
//! shared libraries of an earlier archive and of this one, what columns and first
//! hits cost before and after. Prints tables in Markdown; docs/BENCHMARKS.md
//! explains them.

mod casts;
mod changes;
mod degrees;
mod depth;
#[path = "../../tests/common/entries.rs"]
mod entries;
mod files;
mod hits;
mod libraries;
mod loads;
mod measure;
mod places;
mod plain;
mod samples;
mod walls;

use casts::MARKS;
use loads::{HitCall, Load, RayCall};
use measure::instructions;
use reference::cast::COLUMN_BYTES;
use std::env;

/// The calls, by the names that the profiler knows them by.
const CALLS: [(&str, RayCall); 3] = [ARCHIVE, PLAIN, SAMPLED];
const ARCHIVE: (&str, RayCall) = ("fenalukki_column", entries::column);
const PLAIN: (&str, RayCall) = ("plain_column", plain::plain_column);
const SAMPLED: (&str, RayCall) = ("sampled_column", samples::sampled_column);

/// The archive's first hit, likewise.
const HIT: (&str, HitCall) = ("fenalukki_first_hit", entries::first_hit);

/// The seconds of a column in 003, section 5, Table 1: the jellyfish of 154 line
/// segments, 512 x 512 columns of 1,024 voxels in 3.5 s.
const PUBLISHED: f64 = 3.5 / (512.0 * 512.0);

fn mean(numbers: impl ExactSizeIterator<Item = f64>) -> f64 {
    let count = numbers.len() as f64;
    numbers.sum::<f64>() / count
}

/// What the columns of a load ask for, in the mean: the points in reach of a ray, probes,
/// middles, one for each crossing tick, and the bounds of points, of those in reach alone.
struct Asked {
    in_reach: f64,
    probes: f64,
    middles: f64,
    bounds: f64,
}

impl Asked {
    fn of(load: &Load) -> Asked {
        let in_reach = load.in_reach();
        let casts = load.rays.iter().map(|ray| load.fill(ray, casts::halving));
        let casts: Vec<(u32, [u8; MARKS])> = casts.collect();
        let probes = || casts.iter().map(|(probes, _)| f64::from(*probes));
        let middles = || casts.iter().map(|(_, marks)| casts::crossing(marks) as f64);
        let both = probes().zip(middles()).map(|(x, y)| x + y);
        Asked {
            probes: mean(probes()),
            middles: mean(middles()),
            bounds: mean(in_reach.iter().zip(both).map(|(n, both)| n * both)),
            in_reach: mean(in_reach.into_iter()),
        }
    }

    fn probes_and_middles(&self) -> f64 {
        self.probes + self.middles
    }
}

/// A heading, and the head of a table.
fn print_head(heading: &str, columns: &[&str]) {
    println!("\n## {heading}\n\n| {} |", columns.join(" | "));
    println!("|{}", "---|".repeat(columns.len()));
}

/// A number with this many digits after the point, or a dash.
fn print_number(number: Option<f64>, digits: usize) {
    match number {
        Some(number) => print!(" {number:.digits$} |"),
        None => print!(" - |"),
    }
}

/// The first cells of a row: the load, its points, those in reach of a ray, and what a
/// column asks bounds of.
fn print_load(load: &Load) -> Asked {
    let asked = Asked::of(load);
    print!("| {} | {} |", load.name, load.points);
    for number in [asked.in_reach, asked.probes, asked.middles] {
        print_number(Some(number), 1);
    }
    asked
}

fn print_part(load: &Load) {
    let counted = CALLS.map(|(name, _)| instructions(load, name));
    let times = measure::times::<COLUMN_BYTES, 3>(load, CALLS.map(|(_, call)| call));
    let [archive, plain, sampled] = counted;
    print_load(load);
    counted.iter().for_each(|&number| print_number(number, 0));
    print_number(archive.zip(plain).map(|(x, y)| x / y), 2);
    print_number(archive.zip(sampled).map(|(x, y)| x / y), 2);
    println!(" {:.2} | {:.2} |", times[0] / times[1], times[0] / times[2]);
}

fn print_parts() {
    let columns = [
        "Part",
        "Points",
        "In reach",
        "Probes",
        "Middles",
        "Archive",
        "Rust",
        "Samples",
        "Archive / Rust",
        "Archive / samples",
        "Time / Rust",
        "Time / samples",
    ];
    print_head("Six parts", &columns);
    loads::parts().iter().for_each(print_part);
}

fn print_files() {
    let columns = [
        "Part",
        "Nodes",
        "Check",
        "Read",
        "Write",
        "Write, for a node",
    ];
    print_head("Reading and writing", &columns);
    for load in loads::parts() {
        let counted = files::CALLS.map(|(name, _)| instructions(&load, name));
        print!("| {} | {} |", load.name, load.nodes());
        counted.iter().for_each(|&number| print_number(number, 0));
        print_number(counted[2].map(|n| n / load.nodes() as f64), 0);
        println!();
    }
}

fn print_growing(load: &Load) {
    let [archive, sampled] = [ARCHIVE, SAMPLED].map(|(name, _)| instructions(load, name));
    let asked = print_load(load);
    let some_in_reach = archive.filter(|_| asked.bounds > 0.0);
    print_number(archive, 0);
    print_number(archive.map(|n| n / asked.probes_and_middles()), 0);
    print_number(some_in_reach.map(|n| n / asked.bounds), 1);
    print_number(sampled, 0);
    println!();
}

fn print_growth(heading: &str, loads: &[Load]) {
    let columns = [
        "Load",
        "Points",
        "In reach",
        "Probes",
        "Middles",
        "Archive",
        "For a probe or middle",
        "And point in reach",
        "Samples",
    ];
    print_head(heading, &columns);
    loads.iter().for_each(print_growing);
}

fn print_struts() {
    let columns = [
        "Load",
        "Rays",
        "Marks, archive",
        "Bits, archive",
        "Bits, Rust",
        "Bits, samples",
    ];
    print_head("A strut thinner than a tick", &columns);
    for load in loads::struts() {
        let marked = load.solid::<MARKS>(casts::halving);
        let [archive, plain, sampled] = CALLS.map(|(_, call)| load.solid::<COLUMN_BYTES>(call));
        let (name, rays) = (&load.name, load.rays.len());
        println!("| {name} | {rays} | {marked} | {archive} | {plain} | {sampled} |");
    }
}

/// The loads on one ray, of which the first has no far point; the others have
/// as many points in reach, probes and middles.
fn print_far(loads: &[Load]) {
    let without = instructions(&loads[0], ARCHIVE.0);
    for load in loads {
        let far = (load.points - 1) as f64;
        let archive = instructions(load, ARCHIVE.0);
        let more = archive.zip(without).filter(|_| far > 0.0);
        let asked = print_load(load);
        assert_eq!(asked.in_reach, 1.0, "{}", load.name);
        print_number(archive, 0);
        print_number(more.map(|(n, without)| (n - without) / far), 1);
        println!();
    }
}

fn print_far_points() {
    let columns = [
        "Load",
        "Points",
        "In reach",
        "Probes",
        "Middles",
        "Archive",
        "For a far point",
    ];
    print_head("Far points", &columns);
    loads::far().iter().for_each(|loads| print_far(loads));
}

/// Of the bounds of points that a column would ask for with the whole tree, those of
/// points in reach of its ray.
fn print_in_reach(load: &Load) {
    let asked = Asked::of(load);
    let all = load.points as f64 * asked.probes_and_middles();
    print!("| {} | {} |", load.name, load.points);
    print_number(Some(asked.in_reach), 1);
    print_number(Some(all), 0);
    print_number(Some(asked.bounds), 0);
    println!(" {:.1}% |", 100.0 * asked.bounds / all);
}

fn print_points_in_reach() {
    let columns = [
        "Load",
        "Points",
        "In reach",
        "Points times probes and middles",
        "of these in reach of the ray",
        "Share",
    ];
    print_head("Points in reach of a ray", &columns);
    loads::parts().iter().for_each(print_in_reach);
    loads::lattices().iter().for_each(print_in_reach);
}

/// A column's time beside the published one.
fn print_published() {
    let columns = ["Column", "Points or segments", "Time, µs"];
    print_head("A published figure", &columns);
    println!("| 003, jellyfish | 154 | {:.1} |", 1e6 * PUBLISHED);
    let pad = loads::named("pad.part");
    for load in [loads::lattice_of_154(), pad] {
        let [seconds] = measure::times::<COLUMN_BYTES, 1>(&load, [ARCHIVE.1]);
        print!("| {} | {} |", load.name, load.points);
        print_number(Some(1e6 * seconds / load.rays.len() as f64), 1);
        println!();
    }
}

/// Makes the calls of a load by one name.
fn make(load: &Load, name: &str) {
    if let Some((_, call)) = files::CALLS.iter().find(|(known, _)| *known == name) {
        load.calls(*call);
        return;
    }
    if name == HIT.0 {
        load.hit_all(HIT.1);
        return;
    }
    let call = CALLS.iter().find(|(known, _)| *known == name);
    load.fill_all::<COLUMN_BYTES>(call.expect("the name of a call").1);
}

/// Says so where no instructions are counted.
fn warn() {
    if !measure::counts() {
        eprintln!("valgrind does not run: no instructions are counted");
    }
}

fn print_tables() {
    warn();
    print_parts();
    print_growth("Growth with points", &loads::lattices());
    print_growth("Growth with probes", &loads::cancelled());
    print_growth("Each operator", &loads::operators());
    casts::print_counted("Casts of each operator", &loads::operators());
    degrees::print();
    print_far_points();
    print_points_in_reach();
    print_published();
    print_struts();
    walls::print();
    casts::print();
    hits::print();
    depth::print();
    places::print();
    print_files();
}

fn main() {
    let words: Vec<String> = env::args().skip(1).collect();
    let words: Vec<&str> = words.iter().map(String::as_str).collect();
    match words[..] {
        ["--before", before, after] => changes::print([before, after]),
        [load, name] => make(&loads::named(load), name),
        [load, name, "--rays", rays] => casts::make(load, name, rays),
        [load, name, "--place", place] => places::make(load, name, place),
        [load, name, library] => changes::make(&loads::named(load), name, library),
        _ => print_tables(),
    }
}
