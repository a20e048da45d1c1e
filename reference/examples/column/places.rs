//! What it takes to ask about a place: the bounds there, and the casts on a ray whose
//! ends are both that place.

use crate::casts::{halving, marching, MARKS};
use crate::loads::{self, Load};
use crate::measure::instructions_by;
use crate::{entries, print_head, print_number};
use reference::cast::COLUMN_BYTES;
use reference::field::Ray;
use reference::view::in_millimetres;

/// Asks about the place that is the only ray of a load.
type Ask = fn(&Load);

/// The calls, by the names that the profiler knows them by.
const CALLS: [(&str, Ask); 6] = [
    ("fenalukki_place_bounds", |load| load.hit_all(bounds)),
    ("fenalukki_first_hit", |load| {
        load.hit_all(entries::first_hit)
    }),
    ("fenalukki_viewer_first_hit", |load| load.hit_all(viewed)),
    ("fenalukki_full_cast", |load| {
        load.fill_all::<MARKS>(halving);
    }),
    ("fenalukki_marching_cast", |load| {
        load.fill_all::<MARKS>(marching);
    }),
    ("fenalukki_column", |load| {
        load.fill_all::<COLUMN_BYTES>(entries::column);
    }),
];

/// A place that the bounds leave open, and the way along x from it into the part; a step
/// the other way lies outside.
const OPEN: [(&str, [i32; 3], i32); 3] = [
    ("pad.part", [243, -270, 256], 1),
    ("core.part", [-102, -434, -551], 1),
    ("k.part", [362, 5, 2], -1),
];

/// The marks of the places about an open one, by their steps inwards.
const MARKED: [(i32, u8, &str); 3] = [(-1, 0, "empty"), (1, 2, "inside"), (0, 1, "crossing")];

/// The bounds at A, as a number that a first hit could have.
fn bounds(file: &[u8], ray: &Ray, _: u32) -> u64 {
    let number = entries::place_bounds(file, ray.a, &mut [0; 2]);
    u64::from(number) << 16
}

fn viewed(file: &[u8], ray: &Ray, budget: u32) -> u64 {
    entries::viewer_first_hit(file, &in_millimetres(ray), budget)
}

/// The part, asked about a place.
fn asked(part: &str, at: [i32; 3]) -> Load {
    loads::named(part).on(vec![Ray { a: at, b: at }])
}

/// Makes the call of one name at a place of a part.
pub fn make(part: &str, name: &str, words: &str) {
    let numbers = words.split(' ').map(|word| word.parse().expect("a number"));
    let at: Vec<i32> = numbers.collect();
    let call = CALLS.iter().find(|(known, _)| *known == name);
    call.expect("the name of a call").1(&asked(part, [at[0], at[1], at[2]]));
}

fn print_place(part: &str, at: [i32; 3], mark: u8, word: &str) {
    let load = asked(part, at);
    let (_, marks) = load.fill::<MARKS>(&load.rays[0], halving);
    assert_eq!(marks, [mark; MARKS], "{part} {at:?}");
    let [x, y, z] = at;
    print!("| {part} | {} |", load.points);
    print_number(Some(load.mean_in_reach()), 0);
    print!(" ({x}, {y}, {z}) | {word} |");
    for (name, _) in CALLS {
        let arguments = ["--place", &format!("{x} {y} {z}")];
        print_number(instructions_by(&load, name, &arguments), 0);
    }
    println!();
}

pub fn print() {
    let columns = [
        "Part",
        "Points",
        "In reach",
        "Place",
        "It is",
        "Bounds",
        "First hit",
        "Viewer's first hit",
        "Full cast",
        "Marching cast",
        "Column",
    ];
    print_head("Asking about a place", &columns);
    for (part, [x, y, z], inwards) in OPEN {
        for (steps, mark, word) in MARKED {
            print_place(part, [x + steps * inwards, y, z], mark, word);
        }
    }
}
