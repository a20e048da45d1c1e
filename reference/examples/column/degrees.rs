//! What a column costs of the same part as version 1 and as version 2.

use crate::loads::{self, Load};
use crate::measure::instructions;
use crate::{print_head, print_number, Asked, ARCHIVE, PLAIN};
use reference::cast::COLUMN_BYTES;

/// Parts of 256 points, all in reach, on rays of which no tick is decided in version 1.
const UNDECIDED: [&str; 3] = ["crossing ticks: 1024", "sum", "cut"];

/// The loads that have a row, as version 1.
fn loads() -> Vec<Load> {
    let undecided = UNDECIDED.map(loads::of_version_1);
    loads::parts().into_iter().chain(undecided).collect()
}

/// The same as version 2.
pub fn softer() -> Vec<Load> {
    loads().iter().map(Load::softer).collect()
}

/// Panics unless the archive and plain Rust make the same columns.
fn compare(load: &Load) {
    for ray in &load.rays {
        let [archive, plain] =
            [ARCHIVE, PLAIN].map(|(_, call)| load.fill::<COLUMN_BYTES>(ray, call));
        assert_eq!(archive, plain, "{} {ray:?}", load.name);
    }
}

fn print_row(load: &Load) {
    let both = [load, &load.softer()];
    both.into_iter().for_each(compare);
    let asked = both.map(Asked::of);
    let counted = both.map(|load| instructions(load, ARCHIVE.0));
    let plain = instructions(both[1], PLAIN.0);
    print!("| {} | {} |", load.name, load.points);
    print_number(Some(asked[0].in_reach), 1);
    for asked in &asked {
        print_number(Some(asked.probes), 1);
        print_number(Some(asked.middles), 1);
    }
    counted.iter().for_each(|&number| print_number(number, 0));
    print_number(counted[1].zip(counted[0]).map(|(x, y)| x / y), 2);
    for (number, asked) in counted.iter().zip(&asked) {
        print_number(number.map(|n| n / asked.bounds), 1);
    }
    print_number(plain, 0);
    print_number(counted[1].zip(plain).map(|(x, y)| x / y), 2);
    println!();
}

pub fn print() {
    let columns = [
        "Load",
        "Points",
        "In reach",
        "Probes, version 1",
        "Middles",
        "Probes, version 2",
        "Middles",
        "Archive, version 1",
        "Archive, version 2",
        "Version 2 / version 1",
        "For a probe or middle and point in reach, version 1",
        "Version 2",
        "Rust, version 2",
        "Archive / Rust, version 2",
    ];
    print_head("Degree 6", &columns);
    loads().iter().for_each(print_row);
}
