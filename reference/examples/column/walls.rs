//! Walls of known thickness: how thick the archive's marks make them if every
//! crossing tick is solid, and how thick its columns' bits do.

use crate::casts::{halving, MARKS};
use crate::{entries, print_head};
use reference::cast::COLUMN_BYTES;
use reference::field::Ray;
use reference::walls::{decimal, file_k, walls, Printed, Stand, Wall, LENGTHS};

/// Walls that are shown one by one, by their names and places among these.
const SHOWN: [(&str, usize); 5] = [
    ("ball", 7),
    ("sum", 3),
    ("lesser", 1),
    ("cut", 4),
    ("two cuts", 2),
];

/// How thick a wall comes out. Panics where that is not as it should be.
fn printed(stand: &Stand) -> Printed {
    let (mut marks, mut bits) = ([0xa5; MARKS], [0xa5; COLUMN_BYTES]);
    let (file, ray): (&[u8], &Ray) = (&stand.file, &stand.ray);
    let (cast, column) = (
        halving(file, ray, &mut marks),
        entries::column(file, ray, &mut bits),
    );
    assert!(cast > 65_536 && cast == column, "{cast} {column}");
    let printed = stand.printed(&marks, &bits).expect("one piece");
    assert!(printed.is_right(), "{printed:?} {ray:?}");
    printed
}

fn tick(length: i32) -> f64 {
    f64::from(length) / 1024.0
}

fn print_wall(wall: &Wall, length: i32, moved: i16) {
    let printed = printed(&wall.across(0, length, moved).expect("a length"));
    let [marked_more, solid_more] = printed.more();
    let (name, tick) = (wall.name, tick(length));
    let exact = [&wall.thickness[0], &printed.exact[0]].map(decimal);
    print!("| {name} | {tick:.3} | {:.2} | {:.2} |", exact[0], exact[1]);
    print!(" {} | {marked_more:+.2} |", printed.marked);
    println!(" {} | {solid_more:+.2} |", printed.solid);
}

fn print_shown(walls: &[Wall]) {
    let columns = [
        "Wall",
        "Tick, steps",
        "Exact, steps",
        "Exact, ticks",
        "Crossing ticks solid",
        "More",
        "By the middle",
        "More",
    ];
    print_head("Walls of known thickness", &columns);
    print_wall(&file_k().expect("file K"), 2048, 0);
    for length in LENGTHS {
        for (name, n) in SHOWN {
            let wall = walls.iter().filter(|wall| wall.name == name).nth(n);
            print_wall(wall.expect("a wall"), length, 1);
        }
    }
}

/// The least and the greatest of some numbers, and their mean.
fn range(numbers: &[f64]) -> [f64; 3] {
    let least = numbers.iter().copied().fold(f64::INFINITY, f64::min);
    let most = numbers.iter().copied().fold(f64::NEG_INFINITY, f64::max);
    [
        least,
        most,
        numbers.iter().sum::<f64>() / numbers.len() as f64,
    ]
}

fn print_range(walls: &[Wall], length: i32) {
    let stands: Vec<Stand> = walls.iter().flat_map(|wall| wall.stands(length)).collect();
    let more: Vec<[f64; 2]> = stands.iter().map(|stand| printed(stand).more()).collect();
    print!("| {:.3} | {} |", tick(length), stands.len());
    for i in [0, 1] {
        let more: Vec<f64> = more.iter().map(|more| more[i]).collect();
        let [least, most, mean] = range(&more);
        print!(" {least:+.2} to {most:+.2} | {mean:+.2} |");
    }
    println!();
}

pub fn print() {
    let walls = walls();
    print_shown(&walls);
    let thickness: Vec<f64> = walls.iter().map(|w| decimal(&w.thickness[0])).collect();
    let [thinnest, thickest, _] = range(&thickness);
    println!(
        "\n{} walls, {thinnest:.2} to {thickest:.2} steps thick:",
        walls.len()
    );
    let columns = [
        "Tick, steps",
        "Stands",
        "Crossing ticks solid: more, ticks",
        "Mean",
        "By the middle: more, ticks",
        "Mean",
    ];
    print_head("All walls", &columns);
    LENGTHS
        .iter()
        .for_each(|&length| print_range(&walls, length));
}
