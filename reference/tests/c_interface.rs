//! The interface for C: the header against the Rattle source and against the archive, its inline functions, the tour, the format's
//! document, the installed files and the desk tool.

#[path = "c_interface/desk.rs"]
mod desk;
#[path = "c_interface/prototypes.rs"]
mod prototypes;

use prototypes::{c_entries, rattle_entries, Entry};
use reference::cast::{self, Column, FirstHit, FullCast, Mark};
use reference::field::{field_on_ray, Bounds, Ray};
use reference::fraction::Fraction;
use reference::generate::{self, Shape, SplitMix64, STYLES};
use reference::march::marching_cast;
use reference::part::{self, FileBuilder};
use std::collections::{BTreeMap, BTreeSet};
use std::fs;
use std::io::Write;
use std::path::{Path, PathBuf};
use std::process::{Command, Output, Stdio};

const WARNINGS: [&str; 4] = ["-Wall", "-Wextra", "-pedantic", "-Werror"];

fn root() -> PathBuf {
    Path::new(env!("CARGO_MANIFEST_DIR")).join("..")
}

fn read(name: &str) -> String {
    fs::read_to_string(root().join(name)).unwrap_or_else(|e| panic!("{name}: {e}"))
}

/// A file of this test's own.
fn temporary(name: &str) -> PathBuf {
    let folder = Path::new(env!("CARGO_TARGET_TMPDIR")).join("c_interface");
    fs::create_dir_all(&folder).expect("a folder");
    folder.join(name)
}

fn text(output: Output) -> String {
    let errors = String::from_utf8_lossy(&output.stderr).into_owned();
    assert!(output.status.success(), "{}: {errors}", output.status);
    String::from_utf8(output.stdout).expect("text")
}

/// A program of C files of the repository and the archive, compiled without a warning.
fn compiled(name: &str, compiler: &[&str], sources: &[&str]) -> PathBuf {
    let program = temporary(name);
    let mut command = Command::new(compiler[0]);
    command.args(&compiler[1..]).args(WARNINGS).arg("-I");
    command.arg(root().join("include"));
    command.args(sources.iter().map(|source| root().join(source)));
    // not a source of the language that was named
    command.args(["-x", "none"]);
    command.arg(root().join("target/staticlib/libfenalukki.a"));
    command.arg("-o").arg(&program);
    text(command.output().expect("a compiler"));
    program
}

fn c99(name: &str, sources: &[&str]) -> PathBuf {
    compiled(name, &["cc", "-std=c99"], sources)
}

/// What a program prints, given its standard input.
fn printed(program: &Path, input: &str) -> String {
    let mut command = Command::new(program);
    command.stdin(Stdio::piped()).stdout(Stdio::piped());
    let mut child = command.spawn().expect("starts");
    let mut to = child.stdin.take().expect("its input");
    let input = input.to_string();
    let writing = std::thread::spawn(move || to.write_all(input.as_bytes()));
    let output = child.wait_with_output().expect("ends");
    writing.join().expect("written").expect("written");
    text(output)
}

fn header_entries() -> BTreeMap<String, Entry> {
    c_entries(&read("include/fenalukki.h"))
}

#[test]
fn the_header_declares_what_the_crate_exports() {
    let exported = rattle_entries(&read("crates/fenalukki/src/lib.rt"));
    assert_eq!(header_entries(), exported);
    assert_eq!(exported.len(), 15);
}

/// A header that differs in one word is told apart.
#[test]
fn a_drift_of_the_header_is_seen() {
    let header = read("include/fenalukki.h");
    let entries = c_entries(&header);
    for (from, to) in [
        ("uint64_t fenalukki_check(", "uint32_t fenalukki_check("),
        ("fenalukki_column_counted(", "fenalukki_columns_counted("),
        ("fenalukki_marching_cast(", "fenalukki_march_cast("),
        (
            "int32_t x, int32_t y, int32_t z",
            "int32_t y, int32_t x, int32_t z",
        ),
        ("int64_t bounds[2]", "int64_t bounds[3]"),
        ("int64_t bounds[2]", "int64_t *bounds"),
        ("uint64_t totals[3])", "uint64_t totals[4])"),
        ("const uint8_t *saved", "uint8_t *saved"),
        ("size_t saved_len", "uint32_t saved_len"),
        ("float ax, float ay", "float ax, double ay"),
        ("size_t marks_len", "uint32_t marks_len"),
        ("uint8_t *marks", "const uint8_t *marks"),
        ("const uint8_t *file", "uint8_t *file"),
        ("uint32_t budget,\n", "int32_t budget,\n"),
        ("uint32_t budget,\n", ""),
        ("const int32_t *numbers", "int32_t *numbers"),
        ("const int32_t *numbers", "const uint32_t *numbers"),
        ("int32_t numbers[3066]", "int32_t numbers[3065]"),
        ("int32_t numbers[3066]", "const int32_t numbers[3066]"),
        ("size_t numbers_len", "size_t numbers_count"),
        ("size_t place", "uint32_t place"),
        (
            "uint32_t iso, uint32_t version",
            "uint32_t version, uint32_t iso",
        ),
        (
            "uint32_t iso, uint32_t version",
            "uint32_t iso, uint16_t version",
        ),
        ("uint32_t iso, uint32_t version", "uint32_t iso"),
        (
            "size_t buffer_len, size_t place",
            "size_t place, size_t buffer_len",
        ),
    ] {
        assert!(header.contains(from), "{from}");
        let drifted = c_entries(&header.replacen(from, to, 1));
        assert_ne!(drifted, entries, "{from} to {to}");
    }
}

/// Totals have 64 bits in each entry of the header and of the crate that is lent them, and a header that has 32 in one is told apart.
#[test]
fn totals_of_64_bits() {
    let header = read("include/fenalukki.h");
    let exported = rattle_entries(&read("crates/fenalukki/src/lib.rt"));
    let totals = ("totals".to_string(), "uint64_t [3]".to_string());
    for (name, entry) in c_entries(&header).iter().chain(&exported) {
        let lent = name.ends_with("_counted") || name.ends_with("_totals");
        assert_eq!(entry.parameters.contains(&totals), lent, "{name}");
    }
    let places: Vec<_> = header.match_indices("uint64_t totals[3])").collect();
    assert_eq!(places.len(), 6);
    for (at, _) in places {
        let mut drifted = header.clone();
        drifted.replace_range(at..at + 8, "uint32_t");
        assert_ne!(c_entries(&drifted), exported);
    }
}

/// The archive has the header's entries and no other global name, and needs `memset` alone.
#[test]
fn the_archive_has_these_entries_and_needs_memset() {
    let archive = root().join("target/staticlib/libfenalukki.a");
    let names = |flag: &str| -> BTreeSet<String> {
        let mut nm = Command::new("nm");
        let listed = nm.args(["-P", "-g", flag]).arg(&archive).output();
        let lines = text(listed.expect("nm"));
        let symbols = lines.lines().filter(|line| !line.ends_with(':'));
        symbols
            .filter_map(|line| line.split(' ').next())
            .filter(|name| !name.is_empty())
            .map(String::from)
            .collect()
    };
    let declared: BTreeSet<String> = header_entries().into_keys().collect();
    assert_eq!(names("--defined-only"), declared);
    assert_eq!(names("--undefined-only"), ["memset".to_string()].into());
}

/// The value of a name of the header.
fn named(name: &str) -> u32 {
    let header = read("include/fenalukki.h");
    let line = header
        .split_once(&format!("#define FENALUKKI_{name} "))
        .expect(name);
    let digits = line.1.split(|c: char| !c.is_ascii_digit()).next();
    digits.and_then(|digits| digits.parse().ok()).expect(name)
}

/// The nodes and the iso-value of a file, or the refusal number.
fn checked(file: &[u8]) -> Result<(u32, u32), u32> {
    part::read(file).map(|part| (part.nodes.len() as u32, part.iso.into()))
}

/// The version in a file's trailer.
fn version_of(file: &[u8]) -> u16 {
    let at = file.len() - 10;
    u16::from_le_bytes([file[at], file[at + 1]])
}

/// The file as another version.
fn as_version(mut file: Vec<u8>, version: u16) -> Vec<u8> {
    let at = file.len() - 10;
    file[at..at + 2].copy_from_slice(&version.to_le_bytes());
    file
}

/// The check's answer to a file of one point.
fn check_point(r: u32, x: i32, w: i32, iso: u32) -> Result<(u32, u32), u32> {
    let file = FileBuilder::new(iso as u16);
    checked(&file.point(r as u16, [0, x as i16, 0], w as i16).build())
}

/// Points, of which all but one are joined as they come or at the end.
fn check_points(points: u32, joined: bool) -> Result<(u32, u32), u32> {
    let add = |file: FileBuilder, i| {
        let file = file.point(1, [0; 3], 1);
        if joined && i > 0 {
            file.sum()
        } else {
            file
        }
    };
    let file = (0..points).fold(FileBuilder::new(1), add);
    let joins = if joined { 0 } else { points - 1 };
    checked(&(0..joins).fold(file, |file, _| file.sum()).build())
}

fn check_length(length: u32) -> Result<(u32, u32), u32> {
    let file = FileBuilder::new(1).point(1, [0; 3], 1);
    let leading = length.saturating_sub(24) as usize;
    let file = file.leading(&vec![0xee; leading]).build();
    checked(&file[..length as usize])
}

/// A name that stands for a limit of the file is the last value that passes.
#[test]
fn the_names_of_limits() {
    let (reach, weight) = (named("COORDINATE_MAX") as i32, named("WEIGHT_MAX") as i32);
    let (radius, iso) = (named("RADIUS_MAX"), named("ISO_MAX"));
    assert_eq!(check_point(radius, reach, weight, iso), Ok((1, iso)));
    assert_eq!(check_point(radius, -reach, -weight, iso), Ok((1, iso)));
    for (r, x, w) in [(1, 0, 0), (0, 1, 0), (0, -1, 0), (0, 0, 1), (0, 0, -1)] {
        let beyond = |value: i32, more: i32| if more == 0 { 0 } else { value * more + more };
        let file = check_point(radius + r, beyond(reach, x), beyond(weight, w), iso);
        assert_eq!(file, Err(8), "{r} {x} {w}");
    }
    assert_eq!(check_point(radius, 0, 0, iso + 1), Err(5));
    let records = named("RECORDS_MAX");
    assert_eq!(check_points(records.div_ceil(2), true), Ok((records, 1)));
    assert_eq!(check_points(records.div_ceil(2) + 1, true), Err(4));
    let held = named("HELD_MAX");
    assert_eq!(check_points(held, false), Ok((2 * held - 1, 1)));
    assert_eq!(check_points(held + 1, false), Err(10));
    let (least, most) = (named("FILE_BYTES_MIN"), named("FILE_BYTES_MAX"));
    assert_eq!([least, most].map(check_length), [Ok((1, 1)); 2]);
    assert_eq!([least - 1, most + 1].map(check_length), [Err(1); 2]);
}

/// Names of what the reference names too.
#[test]
fn the_names_of_sizes_and_marks() {
    assert_eq!(named("TICKS"), cast::TICKS);
    assert_eq!(named("MARKS_BYTES"), cast::TICKS);
    assert_eq!(named("COLUMN_BYTES") as usize, cast::COLUMN_BYTES);
    assert_eq!(named("ENOUGH"), 2 * cast::TICKS - 1);
    assert_eq!(named("MARCHING_ENOUGH"), 2 * cast::TICKS + 4);
    assert_eq!(named("RECORD_BYTES") as usize, part::RECORD);
    assert_eq!(named("TRAILER_BYTES") as usize, part::RECORD);
    let marks = [Mark::Empty, Mark::Crossing, Mark::Inside].map(Mark::byte);
    let names = ["EMPTY", "CROSSING", "INSIDE"].map(named);
    assert_eq!(names, marks.map(u32::from));
    assert_eq!(named("NOT_LOOKED_AT"), cast::NOT_LOOKED_AT.into());
}

/// The kinds of document 01 and P1, in their order.
#[test]
fn the_names_of_kinds() {
    let names = ["POINT", "SUM", "GREATER", "LESSER", "CUT"];
    let kinds = names.map(|name| named(&format!("KIND_{name}")));
    assert_eq!(kinds, [1, 2, 3, 4, 5]);
    let header = read("include/fenalukki.h");
    assert_eq!(header.matches("#define FENALUKKI_KIND_").count(), 5);
}

/// The versions of document 01 and P9; no other has a name.
#[test]
fn the_names_of_versions() {
    let degrees = [4, 6].map(|degree| named(&format!("FILE_VERSION_DEGREE_{degree}")));
    assert_eq!(degrees, [1, 2]);
    let header = read("include/fenalukki.h");
    assert_eq!(header.matches("#define FENALUKKI_FILE_VERSION").count(), 2);
    let k = FileBuilder::new(1).point(512, [0; 3], 4);
    for (version, answer) in [(0, Err(3)), (1, Ok((1, 1))), (2, Ok((1, 1))), (3, Err(3))] {
        assert_eq!(checked(&k.clone().version(version).build()), answer);
    }
}

/// A node's six numbers in their order, and how much there is of the longest part.
#[test]
fn the_names_of_numbers() {
    let names = ["KIND", "RADIUS", "X", "Y", "Z", "WEIGHT"];
    let order = names.map(|name| named(&format!("NODE_{name}")));
    assert_eq!(order, [0, 1, 2, 3, 4, 5]);
    let header = read("include/fenalukki.h");
    assert_eq!(header.matches("#define FENALUKKI_NODE_").count(), 6);
    let (a_node, records) = (named("NUMBERS_PER_NODE"), named("RECORDS_MAX"));
    assert_eq!((a_node, named("NUMBERS_MAX")), (6, a_node * records));
    let bytes = named("RECORD_BYTES") * records + named("TRAILER_BYTES");
    assert_eq!(named("WRITE_BYTES_MAX"), bytes);
}

/// The three totals in their order, each total's ceiling, and the bytes of a saved record, 32 bits a total.
#[test]
fn the_names_of_totals() {
    let order = ["CASTS", "PROBES", "REFUSALS"].map(|name| named(&format!("TOTALS_{name}")));
    assert_eq!((named("TOTALS"), order), (3, [0, 1, 2]));
    let ceiling = format!("#define FENALUKKI_TOTALS_MAX UINT64_C({}) ", u64::MAX);
    assert!(read("include/fenalukki.h").contains(&ceiling));
    assert_eq!(named("SAVED_BYTES"), 3 * u32::BITS / 8);
}

/// The words of a line of `readers.c` for a call's number.
const REFUSAL: usize = 0;
const PROBES: usize = 1;
const SPENT: usize = 2;
const K: usize = 3;
const TICK: usize = 4;
const MARK: usize = 5;
const PLACE: usize = 6;
const NODES: usize = 7;
const ISO: usize = 8;
const FILE_VERSION: usize = 9;
const END: usize = 10;
const SECOND_UNIT: usize = 11;

/// A call's number, and what the readers that are for it say.
type Reading = (u64, Vec<(usize, String)>);

fn reading(number: u64, words: &[(usize, u32)]) -> Reading {
    let not_refused = [(REFUSAL, 0), (SECOND_UNIT, 20)];
    let words = if number < 65_536 {
        &[]
    } else {
        &not_refused[..]
    }
    .iter()
    .chain(words);
    let words = words.map(|(word, value)| (*word, value.to_string()));
    (number, words.collect())
}

fn refused(number: u32) -> Reading {
    let zero = [PROBES, SPENT, K, TICK, PLACE, NODES, ISO, FILE_VERSION, END];
    let zero = zero.map(|word| (word, 0));
    let said = [(REFUSAL, number), (SECOND_UNIT, number), (MARK, 3)];
    reading(number.into(), &[&zero[..], &said[..]].concat())
}

fn casts(probes: u32) -> Vec<Reading> {
    let complete = FullCast::Complete { probes }.number().into();
    let column = Column::Done { probes }.number().into();
    let spent = FullCast::Spent { probes, tick: 7 }.number().into();
    vec![
        reading(complete, &[(PROBES, probes), (SPENT, 0)]),
        reading(column, &[(PROBES, probes), (SPENT, 0)]),
        reading(spent, &[(PROBES, probes), (SPENT, 1)]),
    ]
}

fn hits(tick: u32, probes: u32) -> Vec<Reading> {
    let hit = |mark| FirstHit::Hit { tick, mark, probes }.number();
    let clear = FirstHit::Clear { probes }.number();
    let spent = FirstHit::Spent { probes, tick }.number();
    let cases = [
        (hit(Mark::Crossing), 1, tick, 1, 0),
        (hit(Mark::Inside), 2, tick, 2, 0),
        (clear, 3, 0, 0, 0),
        (spent, 4, tick, 3, 1),
    ];
    let words = |(number, k, tick, mark, spent): (u64, u32, u32, u32, u32)| {
        let said = [
            (PROBES, probes),
            (K, k),
            (TICK, tick),
            (MARK, mark),
            (SPENT, spent),
        ];
        let (number, mut words) = reading(number, &said);
        words.push((PLACE, (f64::from(tick) / 1024.0).to_string()));
        (number, words)
    };
    cases.map(words).into()
}

fn check(version: u32, nodes: u32, iso: u32) -> Reading {
    let [high, middle, low] = [version, nodes, iso].map(u64::from);
    let number = (high << 32) + middle * 65_536 + low;
    let said = [(FILE_VERSION, version), (NODES, nodes), (ISO, iso)];
    reading(number, &said)
}

fn write(end: u32) -> Reading {
    reading(65_536 + u64::from(end), &[(END, end)])
}

/// The refusal numbers: 13 is not given.
fn refusals() -> impl Iterator<Item = u32> {
    (1..=18).filter(|&number| number != 13)
}

fn readings() -> Vec<Reading> {
    let mut all: Vec<Reading> = refusals().map(refused).collect();
    all.extend([24, 25, 255, 256, 6144, 65_535, 65_536].map(write));
    for probes in [0, 1, 15, 255, 256, 2046, 2047, 2048, 2052] {
        all.extend(casts(probes));
        all.extend(
            [0, 1, 330, 512, 1023]
                .iter()
                .flat_map(|tick| hits(*tick, probes)),
        );
    }
    let sizes = [1, 2, 255, 256, 510, 511];
    let isos = [1, 2, 768, 4095, 4096];
    for version in [1, 2] {
        let of_size = |&nodes: &u32| isos.map(|iso| check(version, nodes, iso));
        all.extend(sizes.iter().flat_map(of_size));
    }
    all
}

/// The programs of `readers.c`, in C99 and in C++ of two standards.
fn readers(name: &str) -> [PathBuf; 3] {
    let sources = ["readers.c", "second.c"].map(|s| format!("reference/tests/c_interface/{s}"));
    let sources = [&sources[0][..], &sources[1][..]];
    ["c99", "c++98", "c++17"].map(|standard| {
        let compiler = if standard == "c99" { "cc" } else { "c++" };
        let language = if standard == "c99" { "c" } else { "c++" };
        let flag = format!("-std={standard}");
        let command = [compiler, &flag, "-x", language];
        compiled(&format!("{name}-{standard}"), &command, &sources)
    })
}

#[test]
fn readers_in_c99_and_cpp_take_numbers_apart() {
    let readings = readings();
    let input: String = readings.iter().map(|(n, _)| format!("n {n:x}\n")).collect();
    for program in readers("numbers") {
        let output = printed(&program, &input);
        assert_eq!(output.lines().count(), readings.len());
        for (line, (number, expected)) in output.lines().zip(&readings) {
            let words: Vec<&str> = line.split(' ').collect();
            for (word, value) in expected {
                assert_eq!(words[*word], value, "word {word} of {number:#x}: {line}");
            }
        }
    }
}

/// Parts that differ in all their numbers.
const SHAPE: Shape = Shape {
    points: (1, 9),
    reach: 600,
    radius: (50, 1024),
    weight: (-4096, 4096),
    iso: (1, 4096),
};

/// The most by which the bounds of a point of weight 1 differ, by the version: of q from 65,535 to 65,536.
fn width(version: u16) -> i64 {
    match version {
        1 => 131_071,
        _ => 196_606,
    }
}

/// The width that the header gives to the bounds at a place; file K at (1, 0, 0) has the whole of it.
#[test]
fn the_width_of_the_bounds_at_a_place() {
    let mut random = SplitMix64::new(131_071);
    for _ in 0..2000 {
        let part = generate::part(&mut random, &SHAPE);
        let at = [0; 3].map(|_: i32| random.between(-600, 600) as i32);
        let file = FileBuilder::from(&part).build();
        let bounds = cast::bounds_at(&file, at).expect("bounds");
        let weights = part.nodes.iter().map(|node| i64::from(node.w).abs());
        let most = width(version_of(&file)) * weights.sum::<i64>();
        assert!(bounds.high - bounds.low <= most, "{at:?} {part:?}");
    }
    for version in [1, 2] {
        let k = FileBuilder::new(1).point(512, [0; 3], 4).version(version);
        let bounds = cast::bounds_at(&k.build(), [1, 0, 0]).expect("bounds");
        assert_eq!(bounds.high - bounds.low, width(version) * 4);
    }
    let said = "So high - low is at most\n * 131,071 times the sum of the sizes of the part's weights, and in version 2\n * 196,606 times.";
    assert!(read("include/fenalukki.h").contains(said));
}

/// What `columns.c` prints of these parts, or of its own.
fn columns(name: &str, parts: &[PathBuf]) -> String {
    let program = c99(name, &["reference/tests/c_interface/columns.c"]);
    let output = Command::new(program).args(parts).output();
    text(output.expect("starts"))
}

/// File K's column on the ray of document 02, a strut between two middles, which has no bit and two crossing ticks, and file K of degree 6:
/// a ball of 311.4 steps, where it is 362.04 of degree 4.
#[test]
fn columns_through_the_c_entries() {
    let lines = [
        "K 65575",
        "crossing 330-330 693-693",
        "inside 331-692",
        "solid 331-692",
        "counted 65575",
        "solid 331-692",
        "totals 1 39 0",
        "strut 65575",
        "crossing 511-512",
        "inside",
        "solid",
        "softer 65575",
        "crossing 356-356 667-667",
        "inside 357-666",
        "solid 356-667",
        "",
    ];
    assert_eq!(columns("columns", &[]), lines.join("\n"));
}

/// The parts of the examples, as they are and as version 2, under a folder of this name.
fn parts_of_both_versions(name: &str) -> Vec<PathBuf> {
    let parts = ["bracket", "core", "core-cut", "core-sum", "k", "pad"];
    let folder = temporary(name);
    fs::create_dir_all(&folder).expect("a folder");
    let both = parts.map(|part| {
        let path = root().join(format!("examples/parts/{part}.part"));
        let file = fs::read(&path).expect(part);
        assert_eq!(version_of(&file), 1, "{part}");
        let softer = folder.join(format!("{part}.part"));
        fs::write(&softer, as_version(file, 2)).expect("written");
        [path, softer]
    });
    both.concat()
}

/// Where a middle is a whole step, a host can work out a column's bit from the mark and the bounds at that place. Of degree 6 the pad is below
/// its iso-value on all these rays.
#[test]
fn bits_by_marks_and_bounds() {
    let parts = parts_of_both_versions("columns_softer");
    let output = columns("columns_of_parts", &parts);
    assert_eq!(output.lines().count(), parts.len());
    for (line, part) in output.lines().zip(&parts) {
        let is_empty = part.ends_with("columns_softer/pad.part");
        let part = part.display();
        let numbers = line.split(' ').skip(1).step_by(2).map(str::parse);
        let numbers: Vec<u32> = numbers.map(|number| number.expect("a number")).collect();
        let [crossing, solid, wrong] = numbers[..] else {
            panic!("{part}: {line}");
        };
        let right = match is_empty {
            true => crossing == 0,
            false => 0 < solid && solid < crossing,
        };
        assert!(right && wrong == 0, "{part}: {line}");
    }
}

/// The bits of a column and the marks of a full cast, by the reference.
fn bits_and_marks(file: &[u8], ray: &Ray) -> ([u8; 128], [u8; 1024]) {
    let (mut bits, mut marks) = ([0; 128], [0; 1024]);
    let probes = cast::column(file, ray, &mut bits).probes();
    let full = cast::full_cast(file, ray, u32::MAX, &mut marks).probes();
    assert_eq!(probes, full);
    (bits, marks)
}

/// The rounding that the header gives to a bit, in exact fractions, at the middles of crossing ticks.
#[test]
fn the_rounding_of_a_bit() {
    let mut random = SplitMix64::new(16_384);
    let mut seen = [0; 2];
    for i in 0..20_000 {
        let part = generate::part(&mut random, &SHAPE);
        let ray = generate::ray(&mut random, &part, STYLES[i % STYLES.len()]);
        let file = FileBuilder::from(&part).build();
        let weights = part.nodes.iter().map(|node| i128::from(node.w).abs());
        let rounding = match version_of(&file) {
            1 => Fraction::new(weights.sum(), 16_384),
            _ => Fraction::new(7 * weights.sum::<i128>(), 65_536),
        };
        let rounding = rounding.expect("a fraction");
        let iso = Fraction::from(i64::from(part.iso));
        let (bits, marks) = bits_and_marks(&file, &ray);
        for tick in (0..1024).filter(|&tick| marks[tick] == 1) {
            let field = field_on_ray(&part, &ray, 2 * tick as i64 + 1, 2048).expect("a tree");
            let bit = usize::from(bits[tick / 8] >> (tick % 8) & 1);
            let right = [field < &iso + &rounding, iso <= &field + &rounding];
            assert!(right[bit], "tick {tick} of {ray:?} {part:?}");
            seen[bit] += 1;
        }
    }
    assert!(seen.iter().all(|&ticks| ticks > 1000), "{seen:?}");
    let said = "the size of the weight\n * divided by 16,384. In version 2 it is 7/65536 of the size of the weight.";
    assert!(read("include/fenalukki.h").contains(said));
}

/// The header names each refusal number, in order and without 13, and the greatest of them.
#[test]
fn the_names_of_refusals() {
    let header = read("include/fenalukki.h");
    let named = header.lines().filter_map(|line| {
        let name = line.strip_prefix("#define FENALUKKI_REFUSED_")?;
        name.split(' ').nth(1)?.parse::<u32>().ok()
    });
    assert!(named.eq(refusals()));
    assert!(header.contains("#define FENALUKKI_REFUSALS 18\n"));
    let said = "13 is not given: it was document 01's question whether the ray's ends differ.";
    assert!(header.contains(said));
}

/// Each refusal number has a text of its own.
#[test]
fn refusal_texts() {
    let numbers = (0..=18).chain([19, 65_535, 65_536, 65_575, 1 << 32, 2 << 32]);
    let input: String = numbers.map(|n: u64| format!("n {n:x}\n")).collect();
    for program in readers("texts") {
        let output = printed(&program, &input);
        let texts = output.lines().map(|line| line.splitn(13, ' ').last());
        let texts: Vec<&str> = texts.map(|text| text.expect("a text")).collect();
        let own: BTreeSet<&str> = refusals().map(|number| texts[number as usize]).collect();
        assert_eq!(own.len(), 17);
        assert!(!own.contains("no refusal number") && !own.contains("not refused"));
        assert_eq!([0, 13, 19, 20].map(|n| texts[n]), ["no refusal number"; 4]);
        assert_eq!(texts[21..], ["not refused"; 4]);
    }
}

#[test]
fn ticks_reached_and_bits() {
    let ticks = || (0..1024).map(|tick| format!("{tick:x}"));
    let marks: String = ticks().map(|tick| format!("m {tick}\n")).collect();
    let bits: String = ticks().map(|tick| format!("b {tick}\n")).collect();
    let reached: String = (0..=1024).map(|tick| format!("{tick}\n")).collect();
    for program in readers("marks") {
        assert_eq!(printed(&program, &format!("{marks}m 400\n")), reached);
        assert_eq!(printed(&program, &bits), "1 1\n".repeat(1024));
    }
}

/// The budget for a hit at each tick, and the figures that the header's words give.
#[test]
fn budgets_for_hits() {
    let budget = |tick: u32| (2 * tick + 11).min(2047);
    let ticks = [0, 1, 99, 1017, 1018, 1023];
    assert_eq!(ticks.map(budget), [11, 13, 209, 2045, 2047, 2047]);
    let input: String = (0..1024).map(|tick| format!("h {tick:x}\n")).collect();
    let budgets = (0..1024).map(|tick| format!("{}\n", budget(tick)));
    let budgets: String = budgets.collect();
    for program in readers("budgets") {
        assert_eq!(printed(&program, &input), budgets);
    }
    let header = read("include/fenalukki.h");
    for said in [
        "a hit at tick h takes at most 2 h + 11 probes. With a\n * budget of 2 h + 11 or more,",
        "2 * 99 + 11 = 209 is enough.",
        "from tick 1,018 on it would be 2,047 or more,",
        "takes exactly 11 probes, and with a budget of 0\n * to 10 it is spent at tick 0:",
    ] {
        assert!(header.contains(said), "{said}");
    }
}

/// Steps and halves of steps with the doubles next to them, special doubles, and random ones.
fn millimetres() -> Vec<f64> {
    let halves = (-4100..=4100).map(|half| f64::from(half) / 128.0);
    let near = |mm: f64| {
        [
            mm,
            f64::from_bits(mm.to_bits() + 1),
            f64::from_bits(mm.to_bits().max(1) - 1),
        ]
    };
    let special = [
        f64::NAN,
        f64::INFINITY,
        f64::MAX,
        f64::MIN_POSITIVE,
        5e-324,
        1e39,
        0.1,
        3.4e38,
    ];
    let mut random = SplitMix64::new(14);
    let mut drawn = |n: i64| match n % 2 {
        0 => random.between(-34_000_000, 34_000_000) as f64 / 1e6,
        _ => f64::from_bits(random.next_u64()),
    };
    let drawn: Vec<f64> = (0..8000).map(&mut drawn).collect();
    let both = special.iter().flat_map(|mm| [*mm, -mm]);
    halves.flat_map(near).chain(both).chain(drawn).collect()
}

/// The bits of the float expected, and how the viewer's call refuses it.
fn rounded(mm: f64) -> (f32, u32) {
    let steps = (mm * 64.0).round();
    match steps.abs() <= 2047.0 {
        true => ((steps as i32) as f32 / 64.0, 0),
        false => (mm as f32, 15),
    }
}

#[test]
fn coordinates_are_rounded_to_steps() {
    let all = millimetres();
    let input: String = all
        .iter()
        .map(|mm| format!("r {:x}\n", mm.to_bits()))
        .collect();
    for program in readers("steps") {
        let output = printed(&program, &input);
        assert_eq!(output.lines().count(), all.len());
        for (line, mm) in output.lines().zip(&all) {
            let (bits, refusal) = line.split_once(' ').expect("two words");
            let float = f32::from_bits(u32::from_str_radix(bits, 16).expect("bits"));
            let (expected, expected_refusal) = rounded(*mm);
            assert!(
                float.to_bits() == expected.to_bits() || mm.is_nan() && float.is_nan(),
                "{mm:e} {line}"
            );
            assert_eq!(refusal, expected_refusal.to_string(), "{mm:e}");
        }
    }
}

#[test]
fn the_tour() {
    let output = printed(&c99("tour", &["examples/tour.c"]), "");
    assert_eq!(output, read("examples/tour.out"));
    for (name, _) in header_entries() {
        assert!(
            read("examples/tour.c").contains(&format!("{name}(")),
            "{name}"
        );
        assert!(read("README.md").contains(&format!("`{name}`")), "{name}");
    }
}

/// The tour's first hits with planned budgets are the reference's.
#[test]
fn the_budgets_of_the_tour() {
    let tour = read("examples/tour.out");
    let shown = section(&tour, "\n\n9. Planned budgets", "\n\n10. ");
    assert!(shown.contains(": 11 for tick 0, 209 to tick 99, 671 to tick 330\n"));
    let k = FileBuilder::new(1).point(512, [0; 3], 4).build();
    for ([from, to], budget) in [
        ([362, 1386], 11),
        ([362, 1386], 10),
        ([-1024, 1024], 671),
        ([-1024, 1024], 11),
    ] {
        let (a, b) = ([from, 0, 0], [to, 0, 0]);
        let answer = match cast::first_hit(&k, &Ray { a, b }, budget) {
            FirstHit::Hit { tick, probes, .. } => {
                let entry = f64::from(tick) / 1024.0;
                format!("hit, tick {tick} is crossing, entry {entry}, {probes} probes")
            }
            FirstHit::Spent { tick, probes } => format!("spent at tick {tick}, {probes} probes"),
            other => panic!("{other:?}"),
        };
        let [from, to] = [from, to].map(|x| f64::from(x) / 64.0);
        let line = format!("\n({from}, 0, 0) to ({to}, 0, 0), budget {budget}: {answer}");
        assert!(shown.contains(&line), "{line}");
    }
}

/// What the tour prints of a place asked by a ray, after the bounds there, by the reference's bounds alone.
fn asked_place(k: &[u8], at: [i32; 3]) -> String {
    let Bounds { low, high } = cast::bounds_at(k, at).expect("bounds");
    let level = 1 << 32;
    let hit = |mark: &str, probes| format!("hit, tick 0 is {mark}, entry 0, {probes} probes");
    let (mark, first_hit, [full, march]) = match () {
        _ if high < level => ("empty", "clear, 1 probes".to_string(), [1, 5]),
        _ if low >= level => ("inside", hit("inside", 1), [1, 5]),
        _ => ("crossing", hit("crossing", 11), [2047, 2052]),
    };
    let [x, y, z] = at.map(|c| f64::from(c) / 64.0);
    let mm = format!("({x}, {y}, {z})");
    let entry = match mark {
        "empty" => String::new(),
        _ => format!("  entry at {mm}\n"),
    };
    let solid = match low + high >= 2 * level {
        true => "  solid 0 to 1023\n",
        false => "",
    };
    format!(
        "first hit, budget 11: {first_hit}\n{mm} to {mm}: {first_hit}\n{entry}\
         full cast, budget 2047: {full} probes, complete\n  {mark} 0 to 1023\n\
         marching cast, budget 2052: {march} probes, complete\n  {mark} 0 to 1023\n\
         column: {full} probes\n{solid}"
    )
}

/// An empty place of file K, one inside and one left open, each asked by a ray whose ends coincide.
#[test]
fn the_places_of_the_tour() {
    let tour = read("examples/tour.out");
    let shown = section(&tour, "\n\n11. Places asked by rays", "\n12. ");
    let k = FileBuilder::new(1).point(512, [0; 3], 4).build();
    let places = [
        ([512, 0, 0], "empty"),
        ([0; 3], "solid"),
        ([362, 5, 2], "open"),
    ];
    let marks = ["empty", "inside", "crossing"];
    for ((at, state), mark) in places.into_iter().zip(marks) {
        let lines = format!(", {state}\n{}", asked_place(&k, at));
        assert!(lines.contains(&format!("  {mark} 0 to 1023")), "{lines}");
        assert!(shown.contains(&lines), "{lines}");
    }
}

/// The three numbers of a saved record whose bytes are listed in C.
fn saved_numbers(listed: &str) -> [u64; 3] {
    let bytes = listed.split(',').map(|byte| byte.trim().strip_prefix("0x"));
    let bytes = bytes.map(|byte| u64::from_str_radix(byte.expect("a byte"), 16));
    let bytes: Vec<u64> = bytes.map(|byte| byte.expect("a byte")).collect();
    assert_eq!(bytes.len(), 12);
    [0, 4, 8].map(|at| (0..4).map(|i| bytes[at + i] << (8 * i)).sum())
}

/// The totals that the tour restores are the numbers in the bytes of its saved record; a column, of as many probes as the full cast, adds to
/// them, and a record of 11 bytes changes nothing.
#[test]
fn the_saved_record_of_the_tour() {
    let (source, printed) = (read("examples/tour.c"), read("examples/tour.out"));
    let bytes = section(&source, "saved[FENALUKKI_SAVED_BYTES] = {", "}");
    let [casts, probes, refusals] = saved_numbers(bytes);
    assert_eq!(probes, u32::MAX.into());
    let more = section(&printed, "budget 2047: ", " probes");
    let more: u64 = more.parse().expect("a number");
    let before = format!("casts {casts}, probes {probes}, refusals {refusals}");
    let (casts, probes) = (casts + 1, probes + more);
    let after = format!("casts {casts}, probes {probes}, refusals {refusals}");
    let lines = [
        "12 bytes: read",
        &format!("  the totals: {before}"),
        &format!("a column: {after}"),
        "11 bytes: refused 18, the saved record is not exactly 12 bytes long",
        &format!("  the totals: {after}"),
    ];
    let shown = section(&printed, "\n15. A saved record\n", "\n\n16. ");
    assert_eq!(shown, lines.join("\n"));
}

/// The runs of equal words, each with its first and its last tick.
fn runs(words: &[&str]) -> String {
    let mut lines = String::new();
    let mut first = 0;
    for run in words.chunk_by(|a, b| a == b) {
        let last = first + run.len() - 1;
        lines += &format!("  {} {first} to {last}\n", run[0]);
        first = last + 1;
    }
    lines
}

/// What the tour prints of the worked file as a version, by the reference.
fn version_of_tour(file: &[u8], version: u16) -> String {
    let says = format!("version {version}, ");
    let bounds = [[0, -256, 0], [0, 400, 64]].map(|at| {
        let Bounds { low, high } = cast::bounds_at(file, at).expect("bounds");
        let [from, to] = [low, high].map(|bound| bound as f64 / 4_294_967_296.0);
        let [x, y, z] = at;
        format!("{says}({x}, {y}, {z}): {low} to {high}, field {from:.3} to {to:.3}, solid\n")
    });
    let ray = |a, b| Ray { a, b };
    let along = ray([-1024, -256, 0], [1024, -256, 0]);
    let FirstHit::Hit { tick, mark, probes } = cast::first_hit(file, &along, 2047) else {
        panic!("no hit");
    };
    assert_eq!(mark, Mark::Crossing);
    let entry = f64::from(tick) / 1024.0;
    let hit = format!("hit, tick {tick} is crossing, entry {entry}, {probes} probes");
    let (bits, marks) = bits_and_marks(file, &ray([0, 1024, 0], [0, -1024, 0]));
    let down = cast::column(file, &ray([0, 1024, 0], [0, -1024, 0]), &mut [0; 128]);
    let probes = down.probes().expect("probes");
    let marks = marks.map(|mark| ["empty", "crossing", "inside"][usize::from(mark)]);
    let solid: [&str; 1024] = std::array::from_fn(|tick| match bits[tick / 8] >> (tick % 8) & 1 {
        0 => "hollow",
        _ => "solid",
    });
    let solid = runs(&solid);
    let solid = solid.lines().filter(|line| line.contains("solid"));
    let solid: String = solid.map(|line| format!("{line}\n")).collect();
    format!(
        "{}{says}(-1024, -256, 0) to (1024, -256, 0), budget 2047: {hit}\n\
         {says}budget 2047: {probes} probes, complete\n{}{says}column: {probes} probes\n{solid}",
        bounds.concat(),
        runs(&marks)
    )
}

/// The part of the tour in both versions.
#[test]
fn the_versions_of_the_tour() {
    let (format, tour) = (read("docs/FORMAT.md"), read("examples/tour.out"));
    let shown = section(&tour, "\n\n13. ", "\n\n14. ");
    let files = [1, 2].map(|version| as_version(worked_file(&format), version));
    let both =
        [1, 2].map(|version: u16| version_of_tour(&files[usize::from(version) - 1], version));
    let both = both.concat();
    assert!(shown.contains(&both), "{both}");
    let writes = section(&tour, "\n\n3. ", "\n\n4. ");
    for said in [
        "version 2, numbers as given\n  8 bytes not written, 1 of the others not as in 1\n",
        "\nversion 0, place 8: refused 3, the version is not 1 or 2\n  80 bytes not written\n",
        "\nversion 3, place 8: refused 3, the version is not 1 or 2\n  80 bytes not written",
    ] {
        assert!(writes.contains(said), "{said}");
    }
}

/// What `versions.c` prints of these parts, or of its own.
fn versions(name: &str, parts: &[PathBuf]) -> String {
    let program = c99(name, &["reference/tests/c_interface/versions.c"]);
    let output = Command::new(program).args(parts).output();
    text(output.expect("starts"))
}

/// A write asks 16, then 3, then 5 to 11, then 17, and takes all bits of the version.
#[test]
fn the_version_of_a_write() {
    let lines = versions("versions_written", &[]);
    let mut accepted = Vec::new();
    for line in lines.lines() {
        let (version, numbers) = line.split_once(": ").expect("two");
        match version {
            "1" | "2" => {
                assert_eq!(numbers, "65560 16 5 6 11 17 16");
                accepted.push(version);
            }
            _ => assert_eq!(numbers, "3 16 3 3 3 3 16", "{version}"),
        }
    }
    assert_eq!((accepted, lines.lines().count()), (vec!["1", "2"], 17));
}

/// The version by its reader, and in what is read and written again.
#[test]
fn the_version_of_a_part() {
    let parts = parts_of_both_versions("softer");
    let lines = versions("versions_of_parts", &parts);
    assert_eq!(lines.lines().count(), parts.len());
    for (i, (line, path)) in lines.lines().zip(&parts).enumerate() {
        let file = fs::read(path).expect("a part");
        let nodes = file.len() / 12 - 1;
        let (version, iso) = (
            i % 2 + 1,
            u16::from_le_bytes([file[12 * nodes], file[12 * nodes + 1]]),
        );
        let said =
            format!("version {version} nodes {nodes} iso {iso}, read the same, written the same");
        assert_eq!(line, said, "{}", path.display());
    }
}

/// What the tour prints with some words replaced.
fn edited_tour(name: &str, edits: &[(&str, &str)]) -> String {
    let source = temporary(&format!("{name}.c"));
    let mut tour = read("examples/tour.c");
    for (from, to) in edits {
        assert!(tour.contains(from), "{from}");
        tour = tour.replacen(from, to, 1);
    }
    fs::write(&source, tour).expect("written");
    let program = c99(name, &[source.to_str().expect("a path")]);
    printed(&program, "")
}

/// A tour of a part that is refused reads nothing that was lent. Its sections 9 and 11 are of another part.
#[test]
fn a_tour_of_a_refused_part() {
    let check = "if (!show_check(&part))\n        return 1;";
    let end = "part->length = fenalukki_end(number);";
    let no_iso = format!("{end}\n    part->bytes[60] = part->bytes[61] = 0;");
    let edits = [(end, &no_iso[..]), (check, "show_check(&part);")];
    let output = edited_tour("spoiled_tour", &edits);
    let sections: Vec<&str> = output.split("\n\n").collect();
    assert_eq!(sections.len(), 17);
    let counts = [1, 1, 1, 1, 4, 3, 4, 3, 4, 6, 11];
    let of_part = [&sections[1..9], &sections[10..11], &sections[12..14]].concat();
    assert_eq!(of_part.len(), counts.len());
    for (section, refused) in of_part.into_iter().zip(counts) {
        let lines = section.lines().rev().take(refused);
        let said = lines.filter(|line| line.contains("refused 5, ")).count();
        assert_eq!(said, refused, "{section}");
        assert!(section.lines().count() <= refused + 1, "{section}");
    }
}

/// The indented lines of a document that begin with a line.
fn indented<'a>(document: &'a str, first: &str) -> Vec<&'a str> {
    let lines = document
        .lines()
        .skip_while(|line| !line.starts_with(&format!("    {first}")));
    lines.map_while(|line| line.strip_prefix("    ")).collect()
}

fn block<'a>(document: &'a str, language: &str) -> &'a str {
    let after = document
        .split_once(&format!("```{language}\n"))
        .expect("a block")
        .1;
    after.split_once("```").expect("its end").0
}

/// A section of a text, from its heading to the next one.
fn section<'a>(text: &'a str, heading: &str, next: &str) -> &'a str {
    let after = text.split_once(heading).expect("a section").1;
    after.split_once(next).expect("its end").0
}

/// The document's section on cut and lesser.
fn worked_cut(format: &str) -> &str {
    section(format, "\n## A worked cut\n", "\n## ")
}

/// What the tour prints of cut, and of lesser.
fn overlaps(tour: &str) -> [&str; 2] {
    let both = section(tour, "\n\n12. ", "\n\n13. ");
    let (cut, lesser) = both.split_once("\nlesser, ").expect("both");
    [cut, lesser]
}

/// The document's pieces of their planes are the tour's.
#[test]
fn the_format_shows_cut_and_lesser() {
    let (format, tour) = (read("docs/FORMAT.md"), read("examples/tour.out"));
    let both = worked_cut(&format).split_once("and for the lesser:");
    let (cut, lesser) = both.expect("both");
    for (document, printed) in [cut, lesser].iter().zip(overlaps(&tour)) {
        let lines = indented(document, "......");
        assert_eq!(lines.len(), 10);
        assert!(printed.contains(&lines.join("\n")), "{lines:?}");
    }
}

/// Whether a cell, "−120.75, below 768: empty", agrees with a line of bounds, "…, field A to B, empty".
fn agrees(cell: &str, line: &str) -> bool {
    let (value, verdict) = cell.trim().rsplit_once(": ").expect("two");
    let value = value.split(',').next().unwrap_or_default();
    let value: f64 = value.replace('−', "-").parse().expect("a number");
    let words: Vec<&str> = line.split([' ', ',']).rev().collect();
    let [low, high] = [4, 2].map(|at| words[at].parse::<f64>().expect("a number"));
    let room = 0.0005; // three digits are printed
    words[0] == verdict && low - room <= value && value <= high + room
}

/// The values that the document works out lie in the bounds that the tour prints.
#[test]
fn the_values_of_the_worked_cut() {
    let (format, tour) = (read("docs/FORMAT.md"), read("examples/tour.out"));
    for (row, printed) in ["| cut |", "| lesser, "].iter().zip(overlaps(&tour)) {
        let rows = worked_cut(&format).lines();
        let row = rows.filter(|line| line.starts_with(row)).last();
        let cells = row.expect("a row").trim_matches('|').split('|').skip(1);
        let lines: Vec<&str> = printed.lines().filter(|l| l.contains(", field ")).collect();
        assert_eq!((lines.len(), cells.clone().count()), (2, 2));
        for (cell, line) in cells.zip(lines) {
            assert!(agrees(cell, line), "{cell} {line}");
        }
    }
}

/// The document's two records are those of the part that the tour cuts.
#[test]
fn the_records_of_the_worked_cut() {
    let format = read("docs/FORMAT.md");
    let records = indented(worked_cut(&format), " 36 01 00");
    let edits = [
        ("512, 0, 400, 64", "512, 0, 0, 64"),
        ("FENALUKKI_KIND_GREATER", "FENALUKKI_KIND_CUT"),
    ];
    let output = edited_tour("cut_tour", &edits);
    assert_eq!(records.len(), 2);
    assert!(output.contains(&records.join("\n")), "{records:?}");
}

/// The document's file, its plane, its cast and its column are the tour's.
#[test]
fn the_format_shows_what_the_tour_prints() {
    let (format, tour) = (read("docs/FORMAT.md"), read("examples/tour.out"));
    let cast = indented(&format, "  empty 0 to");
    for (lines, count) in [
        (indented(&format, "  0 01 00"), 6),
        (indented(&format, "......"), 32),
        (cast, 9),
        (indented(&format, "  solid 134 to"), 2),
    ] {
        assert_eq!(lines.len(), count);
        assert!(tour.contains(&lines.join("\n")), "{lines:?}");
    }
}

/// The bytes that the document shows.
fn worked_file(format: &str) -> Vec<u8> {
    let lines = indented(format, "  0 01 00");
    let words = lines
        .iter()
        .flat_map(|line| line[3..].split_whitespace().take(12));
    let bytes = words.map(|word| u8::from_str_radix(word, 16).expect("a byte"));
    bytes.collect()
}

/// The tour's marching casts of the worked file are the reference's.
#[test]
fn the_marching_casts_of_the_tour() {
    let (format, tour) = (read("docs/FORMAT.md"), read("examples/tour.out"));
    let shown = section(&tour, "\n\n6. Marching casts", "\n\n7. ");
    let (a, b) = ([0, 1024, 0], [0, -1024, 0]);
    for budget in [2052, 30, 1] {
        let file = worked_file(&format);
        let answer = match marching_cast(&file, &Ray { a, b }, budget, &mut [0; 1024]) {
            FullCast::Complete { probes } => format!("{probes} probes, complete"),
            FullCast::Spent { probes, tick } => format!("{probes} probes, spent at tick {tick}"),
            FullCast::Refused(number) => panic!("refused {number}"),
        };
        let line = format!("\nbudget {budget}: {answer}\n");
        assert!(shown.contains(&line), "{line}");
    }
}

/// The bytes that the document shows, as the reference reads them, and as its commands print them.
#[test]
fn the_worked_file_of_the_format() {
    let format = read("docs/FORMAT.md");
    let file = worked_file(&format);
    assert_eq!((file.len(), checked(&file)), (72, Ok((5, 768))));
    let line = |bytes: &[u8]| {
        bytes
            .iter()
            .map(|b| format!(" {b:02x}"))
            .collect::<String>()
    };
    let lines: Vec<String> = file.chunks(12).map(line).collect();
    assert!(block(&format, "text").starts_with(&lines.join("\n")));
}

/// What the document's lines of C write is the worked file, and its numbers are the tour's.
#[test]
fn the_write_of_the_format() {
    let format = read("docs/FORMAT.md");
    let code = block(&format, "c");
    let rows = code.lines().filter(|line| line.contains("FENALUKKI_KIND_"));
    let rows: Vec<&str> = rows.collect();
    assert_eq!(rows.len(), 5);
    assert!(read("examples/tour.c").contains(&rows.join("\n")));
    let source = temporary("write.c");
    let code = format!(
        "#include \"fenalukki.h\"\n#include <stdio.h>\nint main(void)\n{{\n{code}\
         return fwrite(file, 1, length, stdout) != length;\n}}\n"
    );
    fs::write(&source, code).expect("written");
    let program = c99("write", &[source.to_str().expect("a path")]);
    let output = Command::new(program).output().expect("starts");
    assert_eq!(output.stdout, worked_file(&format));
}

/// What the document's commands print.
#[test]
fn the_commands_of_the_format() {
    let format = read("docs/FORMAT.md");
    let script = format!("set -e\n{}", block(&format, "bash"));
    let mut bash = Command::new("bash");
    let output = bash.arg("-c").arg(script).current_dir(root()).output();
    assert_eq!(text(output.expect("bash")), block(&format, "text"));
}

/// The document's indented command that begins with some words, and the indented lines after it.
fn shown_after<'a>(document: &'a str, words: &str) -> (&'a str, Vec<&'a str>) {
    let command = indented(document, words)[0];
    let shown = document.split_once(command).expect("its place").1;
    let shown = shown.trim_start_matches('\n').lines();
    let shown = shown.map_while(|line| line.strip_prefix("    "));
    (command, shown.collect())
}

/// What the README says that the listers print.
#[test]
fn the_listers_of_the_readme() {
    let readme = read("README.md");
    for program in ["target/bin/partlist", "(printf"] {
        let (command, shown) = shown_after(&readme, program);
        let mut bash = Command::new("bash");
        let output = bash.args(["-c", command]).current_dir(root()).output();
        let output = text(output.expect("bash"));
        assert_eq!(output.lines().collect::<Vec<_>>(), shown, "{command}");
    }
}

/// Paths from the root, and the picture from the document's own folder.
#[test]
fn the_paths_of_the_format() {
    let format = read("docs/FORMAT.md");
    let quoted = format.split('`').skip(1).step_by(2);
    let paths = quoted.filter(|word| word.contains('.') && !word.contains(' '));
    let picture = format
        .split("src=\"")
        .nth(1)
        .and_then(|rest| rest.split('"').next());
    let picture = format!("docs/{}", picture.expect("a picture"));
    for path in paths.chain([&picture[..]]) {
        assert!(root().join(path).exists(), "{path}");
    }
}

/// The kernel's plot has its points where the formula has them.
#[test]
fn the_plot_of_the_kernel() {
    let plot = read("docs/pictures/kernel.svg");
    let points = plot.split_once("points=\"").expect("points").1;
    let points = points.split_once('"').expect("their end").0;
    let numbers = points
        .split([' ', ',', '\n'])
        .filter(|word| !word.is_empty());
    let numbers: Vec<f64> = numbers
        .map(|word| word.parse().expect("a number"))
        .collect();
    assert_eq!(numbers.len(), 2 * 33);
    for (i, point) in numbers.chunks(2).enumerate() {
        let d = i as f64 / 32.0;
        let u = 1.0 - d * d;
        assert!((point[0] - (60.0 + 320.0 * d)).abs() < 0.001, "{point:?}");
        assert!(
            (point[1] - (240.0 - 200.0 * u * u)).abs() < 0.001,
            "{point:?}"
        );
    }
}

fn install(prefix: &[&Path]) -> Output {
    let mut script = Command::new(root().join("install"));
    script.args(prefix).output().expect("the script")
}

/// The flags that a pkg-config file holds, by pkg-config or, where that is not installed, read from it.
fn flags(prefix: &Path) -> Vec<String> {
    let folder = prefix.join("lib/pkgconfig");
    let mut tool = Command::new("pkg-config");
    tool.args(["--cflags", "--libs", "fenalukki"]);
    let flags = match tool.env("PKG_CONFIG_PATH", &folder).output() {
        Ok(output) => text(output),
        Err(_) => {
            println!("pkg-config is not installed: flags are read from fenalukki.pc");
            let file = fs::read_to_string(folder.join("fenalukki.pc")).expect("a file");
            let lines = file.lines().filter_map(|line| line.split_once(": "));
            let flags = lines.filter(|(name, _)| ["Cflags", "Libs"].contains(name));
            let flags: String = flags.map(|(_, flags)| format!("{flags} ")).collect();
            let flags = flags.replace("${includedir}", "${prefix}/include");
            let flags = flags.replace("${libdir}", "${prefix}/lib");
            flags.replace("${prefix}", &prefix.display().to_string())
        }
    };
    flags.split_whitespace().map(String::from).collect()
}

/// A host that is built from the installed files alone.
#[test]
fn a_host_built_with_pkg_config() {
    let prefix = temporary("prefix");
    let _ = fs::remove_dir_all(&prefix);
    text(install(&[&prefix]));
    let prefix = prefix.canonicalize().expect("a folder");
    let placed = [
        "FORMAT.md",
        "pictures/kernel.svg",
        "examples/tour.c",
        "examples/desk/desk.c",
        "examples/desk/mistakes.txt",
        "examples/desk/bracket.drawing",
        "examples/desk/softer.drawing",
    ];
    for file in placed {
        assert!(
            prefix.join("share/doc/fenalukki").join(file).exists(),
            "{file}"
        );
    }
    let flags = flags(&prefix);
    let libraries: Vec<&String> = flags.iter().filter(|flag| flag.starts_with("-l")).collect();
    assert_eq!(libraries, ["-lfenalukki"]);
    let program = temporary("installed-column");
    let mut cc = Command::new("cc");
    cc.arg(root().join("examples/column.c")).args(&flags);
    text(cc.arg("-o").arg(&program).output().expect("cc"));
    let output = Command::new(&program).current_dir(root()).output();
    let solid = format!("{}{}{}", ".".repeat(41), "#".repeat(46), ".".repeat(41));
    assert_eq!(
        text(output.expect("starts")),
        format!("{solid}\nprobes 39\n")
    );
}

#[test]
fn the_pkg_config_file_has_the_headers_version() {
    let prefix = temporary("versions");
    text(install(&[&prefix]));
    let file = fs::read_to_string(prefix.join("lib/pkgconfig/fenalukki.pc")).expect("a file");
    let header = read("include/fenalukki.h");
    let number = |name: &str| {
        let line = header.split_once(&format!("#define FENALUKKI_VERSION_{name} "));
        line.and_then(|(_, rest)| rest.lines().next())
            .expect("a version")
    };
    let version = ["MAJOR", "MINOR", "PATCH"].map(number).join(".");
    assert!(file.contains(&format!("\nVersion: {version}\n")), "{file}");
    assert!(header.contains(&format!("#define FENALUKKI_VERSION \"{version}\"\n")));
}

#[test]
fn install_asks_for_one_prefix() {
    for prefix in [&[][..], &[Path::new("")], &[Path::new("a"), Path::new("b")]] {
        let output = install(prefix);
        assert_eq!(output.status.code(), Some(2));
        assert_eq!(output.stderr, b"usage: ./install PREFIX\n");
    }
}

/// With a blank in the prefix, as it is given or by the folder it is in, nothing is placed.
#[test]
fn install_refuses_a_blank_in_the_prefix() {
    let folder = temporary("a blank");
    let _ = fs::remove_dir_all(&folder);
    fs::create_dir(&folder).expect("a folder");
    for prefix in [folder.join("prefix"), "prefix".into(), "a\ttab".into()] {
        let mut script = Command::new(root().join("install"));
        let output = script.arg(&prefix).current_dir(&folder).output();
        let output = output.expect("the script");
        let full = folder.join(&prefix);
        let said = format!("install: a blank in the prefix: {}\n", full.display());
        assert_eq!(output.status.code(), Some(2));
        assert_eq!(String::from_utf8_lossy(&output.stderr), said);
        assert!(!full.exists(), "{}", full.display());
    }
}
