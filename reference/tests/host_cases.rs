//! The C entries of the archive on every ray and place of "Rays and places
//! tried", on each refusal, on a small stack, on several threads and from C.

#[path = "common/host.rs"]
mod host;
#[path = "common/worked.rs"]
mod worked;

use host::{check, column, entries, first_hit, full_cast, marching_cast, place_bounds};
use reference::cast::{Column, FirstHit, FullCast, Mark};
use reference::field::{Bounds, Ray};
use reference::generate::fault;
use reference::part::FileBuilder;
use reference::view::in_millimetres;
use reference::write::MOST_NUMBERS;
use std::fs;
use std::path::{Path, PathBuf};
use std::process::Command;
use std::thread;
use worked::{at_y, file_k, AXIS};

/// The marks that the archive alone leaves of an unlimited full cast.
fn marks(file: &[u8], ray: &Ray) -> [u8; 1024] {
    let mut marks = [9; 1024];
    entries::full_cast(file, ray, 2047, &mut marks);
    marks
}

/// Those of an unlimited marching cast.
fn marched(file: &[u8], ray: &Ray) -> [u8; 1024] {
    let mut marks = [9; 1024];
    entries::marching_cast(file, ray, 2052, &mut marks);
    marks
}

/// The check of a file and the bounds at a place refuse with the number, and
/// the casting calls too.
fn assert_file_refused(file: &[u8], number: u32) {
    assert_eq!(check(file), Err(number));
    for at in [[0; 3], [2047; 3], [2048; 3], [i32::MIN; 3]] {
        assert_eq!(place_bounds(file, at), Err(number));
    }
    assert_refused(file, &AXIS, number);
}

/// The four calls on a ray refuse with the number.
fn assert_refused(file: &[u8], ray: &Ray, number: u32) {
    for room in [0, 127, 128, 1023, 1024, 2000] {
        let cast = full_cast(file, ray, 2047, room);
        assert_eq!(cast, FullCast::Refused(number));
        let cast = marching_cast(file, ray, 2052, room);
        assert_eq!(cast, FullCast::Refused(number));
        assert_eq!(column(file, ray, room), Column::Refused(number));
    }
    assert_eq!(first_hit(file, ray, 2047), FirstHit::Refused(number));
}

#[test]
fn the_axis_ray() {
    let k = file_k();
    let cast = full_cast(&k, &AXIS, 2047, 1024);
    assert_eq!(cast.number(), 65_536 + 39);
    assert_eq!(column(&k, &AXIS, 128).number(), 65_536 + 39);
    let cast = marching_cast(&k, &AXIS, 2052, 1024);
    assert_eq!(cast.number(), 65_536 + 49);
    let hit = FirstHit::Hit {
        tick: 330,
        mark: Mark::Crossing,
        probes: 15,
    };
    for budget in [15, 16, 39, 2047, u32::MAX] {
        assert_eq!(first_hit(&k, &AXIS, budget), hit);
    }
}

#[test]
fn every_budget_of_the_axis_ray() {
    let k = file_k();
    for budget in 0..=52 {
        let spent = matches!(full_cast(&k, &AXIS, budget, 1024), FullCast::Spent { .. });
        assert_eq!(spent, budget < 39);
        let cast = marching_cast(&k, &AXIS, budget, 1024);
        assert_eq!(matches!(cast, FullCast::Spent { .. }), budget < 49);
        let spent = matches!(first_hit(&k, &AXIS, budget), FirstHit::Spent { .. });
        assert_eq!(spent, budget < 15);
    }
    let spent = FullCast::Spent {
        probes: 14,
        tick: 330,
    };
    assert_eq!(full_cast(&k, &AXIS, 14, 1024), spent);
    let number = (4 << 32) + (330 << 16) + 14;
    assert_eq!(first_hit(&k, &AXIS, 14).number(), number);
}

#[test]
fn y_512_is_all_empty() {
    let k = file_k();
    assert_eq!(full_cast(&k, &at_y(512), 1, 1024).number(), 65_537);
    assert_eq!(marching_cast(&k, &at_y(512), 5, 1024).number(), 65_541);
    assert_eq!(marching_cast(&k, &at_y(512), 4, 1024).number(), 131_076);
    assert_eq!(first_hit(&k, &at_y(512), 1).number(), (3 << 32) + 1);
    assert_eq!(column(&k, &at_y(512), 128).number(), 65_537);
    assert_eq!(marks(&k, &at_y(512)), [0; 1024]);
    assert_eq!(marched(&k, &at_y(512)), [0; 1024]);
}

#[test]
fn y_362_crosses_inside_509_and_514() {
    let k = file_k();
    assert_eq!(full_cast(&k, &at_y(362), 2047, 1024).number(), 65_575);
    assert_eq!(column(&k, &at_y(362), 128).number(), 65_575);
    let mut expected = [0; 1024];
    expected[509..515].copy_from_slice(&[1, 2, 2, 2, 2, 1]);
    assert_eq!(marks(&k, &at_y(362)), expected);
    assert_eq!(marched(&k, &at_y(362)), expected);
}

#[test]
fn weights_4_and_minus_4_cancel() {
    let builder = FileBuilder::new(1).point(512, [0; 3], 4);
    let file = builder.point(512, [0; 3], -4).sum().build();
    let cast = full_cast(&file, &AXIS, 2047, 1024);
    assert!(matches!(cast, FullCast::Complete { probes } if probes > 1));
    assert_eq!(marks(&file, &AXIS), [0; 1024]);
    assert_eq!(marched(&file, &AXIS), [0; 1024]);
    assert_eq!(column(&file, &AXIS, 128).probes(), cast.probes());
    assert!(matches!(
        first_hit(&file, &AXIS, 2047),
        FirstHit::Clear { .. }
    ));
}

#[test]
fn an_inside_hit() {
    let file = FileBuilder::new(1).point(1024, [0; 3], 4096).build();
    let ray = Ray {
        a: [1, 0, 0],
        b: [2, 0, 0],
    };
    assert_eq!(first_hit(&file, &ray, 1).number(), (2 << 32) + 1);
    assert_eq!(full_cast(&file, &ray, 1, 1024).number(), 65_537);
    assert_eq!(marks(&file, &ray), [2; 1024]);
}

#[test]
fn checked_files() {
    assert_eq!(check(&file_k()), Ok((1, 1)));
    assert_eq!(entries::check(&file_k()), (1 << 32) + (1 << 16) + 1);
    let (most, _) = most_records();
    assert_eq!(check(&most), Ok((511, 1)));
    let iso = |iso| FileBuilder::new(iso).point(1, [0; 3], 1).build();
    assert_eq!(entries::check(&iso(4096)), (1 << 32) + (1 << 16) + 4096);
    assert_eq!(check(&iso(4096)), Ok((1, 4096)));
    assert_file_refused(&iso(4097), 5);
}

/// The starred places, and the reach's last places.
#[test]
fn worked_places() {
    let both = |low, high| Ok(Bounds { low, high });
    let k = file_k();
    let centre = 17_179_869_184;
    assert_eq!(place_bounds(&k, [0, 0, 0]), both(centre, centre));
    assert_eq!(place_bounds(&k, [512, 0, 0]), both(0, 0));
    let near = 4_296_802_500;
    assert_eq!(place_bounds(&k, [362, 0, 0]), both(near, near));
    let small = |w| FileBuilder::new(1).point(3, [0; 3], w).build();
    let (low, high) = (3_393_528_516, 3_393_645_025);
    assert_eq!(place_bounds(&small(1), [1, 0, 0]), both(low, high));
    assert_eq!(place_bounds(&small(-1), [1, 0, 0]), both(-high, -low));
    for c in [2047, -2047] {
        assert_eq!(place_bounds(&k, [c; 3]), both(0, 0));
    }
    for value in [2048, -2048, 65_536, i32::MAX, i32::MIN] {
        for i in 0..3 {
            let mut at = [0; 3];
            at[i] = value;
            assert_eq!(place_bounds(&k, at), Err(12));
        }
    }
}

#[test]
fn refused_files() {
    let radius = |r| FileBuilder::new(1).point(r, [0; 3], 4).build();
    assert!(full_cast(&radius(1024), &AXIS, 2047, 1024)
        .probes()
        .is_some());
    assert_file_refused(&radius(1025), 8);
    assert_file_refused(&FileBuilder::new(1).sum().build(), 9);
    let held = (0..65).fold(FileBuilder::new(1), |b, _| b.point(1, [0; 3], 1));
    assert_file_refused(&held.build(), 10);
    let k = FileBuilder::new(1).point(512, [0; 3], 4);
    assert_file_refused(&k.clone().mark([0; 4]).version(9).build(), 2);
    for question in 1..=11 {
        assert_file_refused(&fault(k.clone(), question).build(), question);
    }
    for length in 0..24 {
        assert_file_refused(&k.build()[..length], 1);
    }
}

/// Inside, undecided and outside file K's solid: the numbers of each call.
#[test]
fn ends_that_coincide() {
    let k = file_k();
    for (at, probes, march, hit, mark) in [
        ([5, 6, 7], 1, 5, (2 << 32) + 1, 2),
        ([362, 5, 2], 2047, 2052, (1 << 32) + 11, 1),
        ([512, 0, 0], 1, 5, (3 << 32) + 1, 0),
    ] {
        let ray = Ray { a: at, b: at };
        assert_eq!(full_cast(&k, &ray, 2047, 1024).number(), 65_536 + probes);
        let cast = marching_cast(&k, &ray, 2052, 1024);
        assert_eq!(cast.number(), 65_536 + march);
        assert_eq!(column(&k, &ray, 128).number(), 65_536 + probes);
        assert_eq!(first_hit(&k, &ray, 2047).number(), hit);
        assert_eq!(marks(&k, &ray), [mark; 1024]);
        assert_eq!(marched(&k, &ray), [mark; 1024]);
    }
}

#[test]
fn refused_rays() {
    let k = file_k();
    for value in [2048, -2048, 65_536, i32::MAX, i32::MIN] {
        for i in 0..6 {
            let mut ray = AXIS;
            let end = if i < 3 { &mut ray.a } else { &mut ray.b };
            end[i % 3] = value;
            assert_refused(&k, &ray, 12);
        }
    }
    for value in [2047, -2047] {
        let ray = Ray {
            a: [value; 3],
            b: [-value; 3],
        };
        assert!(full_cast(&k, &ray, 2047, 1024).probes().is_some());
        assert!(marching_cast(&k, &ray, 2052, 1024).probes().is_some());
    }
}

#[test]
fn refused_buffers() {
    let k = file_k();
    for room in [0, 1, 128, 1022, 1023] {
        assert_eq!(full_cast(&k, &AXIS, 2047, room), FullCast::Refused(14));
        let cast = marching_cast(&k, &AXIS, 2052, room);
        assert_eq!(cast, FullCast::Refused(14));
    }
    for room in [0, 1, 126, 127] {
        assert_eq!(column(&k, &AXIS, room), Column::Refused(14));
    }
    for room in [1024, 1025, 5000] {
        assert_eq!(full_cast(&k, &AXIS, 2047, room).probes(), Some(39));
        assert_eq!(marching_cast(&k, &AXIS, 2052, room).probes(), Some(49));
        assert_eq!(column(&k, &AXIS, room).probes(), Some(39));
    }
}

/// The most records, with a ray that needs many probes.
fn most_records() -> (Vec<u8>, Ray) {
    let mut file = FileBuilder::new(1).point(900, [0, 1, 2], 3);
    for i in 1..256 {
        let w = if i % 2 == 0 { 3 } else { -3 };
        file = file.point(900, [i, -i, 2], w).sum();
    }
    (file.build(), at_y(300))
}

/// Reads a file of the most records and writes it again.
fn read_and_write(file: &[u8]) {
    let (mut numbers, mut again) = (vec![7; MOST_NUMBERS], vec![7; file.len()]);
    let array = numbers.as_mut_slice().try_into().expect("so many");
    assert_eq!(entries::read(file, array), entries::check(file));
    let end = 65_536 + file.len() as u32;
    assert_eq!(entries::write(&numbers, 1, 1, &mut again, 0), end);
    assert_eq!(again, file);
}

#[test]
fn a_stack_of_64_kib() {
    let calls = || {
        let (file, ray) = most_records();
        let view = in_millimetres(&ray);
        let (mut marks, mut bits) = (vec![9; 1024], vec![9; 128]);
        let (mut totals, mut bounds) = ([0; 3], [0; 2]);
        let cast = entries::full_cast(&file, &ray, 2047, &mut marks);
        assert!(cast > 65_536 + 100);
        let counted = entries::full_cast_counted(&file, &ray, 2047, &mut marks, &mut totals);
        let column = entries::column(&file, &ray, &mut bits);
        let counted_column = entries::column_counted(&file, &ray, &mut bits, &mut totals);
        assert_eq!([counted, column, counted_column], [cast; 3]);
        let march = entries::marching_cast(&file, &ray, 2052, &mut marks);
        assert!(march > 65_536 + 100 && march != cast);
        let counted = entries::marching_cast_counted(&file, &ray, 2052, &mut marks, &mut totals);
        assert_eq!(counted, march);
        let hit = entries::first_hit(&file, &ray, 2047);
        assert!(hit > 65_536);
        let counted = entries::first_hit_counted(&file, &ray, 2047, &mut totals);
        let viewer = entries::viewer_first_hit(&file, &view, 2047);
        let counted_viewer = entries::viewer_first_hit_counted(&file, &view, 2047, &mut totals);
        assert_eq!([counted, viewer, counted_viewer], [hit; 3]);
        assert_eq!((totals[0], totals[2]), (5, 0));
        assert_eq!(entries::restore_totals(&[0; 12], &mut totals), 65_536);
        assert_eq!(totals, [0; 3]);
        assert_eq!(entries::check(&file) >> 16, 65_536 + 511);
        assert_eq!(entries::place_bounds(&file, ray.a, &mut bounds), 65_536);
        read_and_write(&file);
    };
    let small = thread::Builder::new().stack_size(64 * 1024);
    small.spawn(calls).expect("starts").join().expect("ends");
}

#[test]
fn several_threads_on_one_file() {
    let (file, ray) = most_records();
    let expected = marks(&file, &ray);
    let cast_both = || {
        assert_eq!(marks(&file, &ray), expected);
        assert_eq!(marched(&file, &ray), expected);
    };
    thread::scope(|scope| {
        for _ in 0..4 {
            scope.spawn(|| (0..10).for_each(|_| cast_both()));
        }
    });
    full_cast(&file, &ray, 2047, 1024);
    marching_cast(&file, &ray, 2052, 1024);
}

/// The program `examples/column.c`, compiled against the header without a
/// warning.
fn column_program(root: &Path) -> PathBuf {
    let program = Path::new(env!("CARGO_TARGET_TMPDIR")).join("column");
    let built = Command::new("cc")
        .args(["-std=c99", "-Wall", "-Wextra", "-pedantic", "-Werror", "-I"])
        .arg(root.join("include"))
        .arg(root.join("examples/column.c"))
        .arg(root.join("target/staticlib/libfenalukki.a"))
        .arg("-o")
        .arg(&program)
        .status();
    assert!(built.expect("a C compiler, cc").success());
    program
}

/// What it prints of file K, of a file that is not there, and of the filter
/// core, which the README shows.
#[test]
fn a_host_in_c() {
    let root = Path::new(env!("CARGO_MANIFEST_DIR")).join("..");
    let program = column_program(&root);
    let printed = |name: &str| {
        let file = root.join("examples/parts").join(name);
        let output = Command::new(&program).arg(file).output();
        String::from_utf8(output.expect("starts").stdout).expect("text")
    };
    let k = fs::read(root.join("examples/parts/k.part"));
    assert_eq!(k.expect("file K"), file_k());
    let solid = format!("{}{}{}", ".".repeat(41), "#".repeat(46), ".".repeat(41));
    assert_eq!(printed("k.part"), format!("{solid}\nprobes 39\n"));
    assert_eq!(printed("none.part"), "refused 1\n");
    let core = printed("core.part");
    let shown = core.lines().map(|line| format!("    {line}\n"));
    let readme = fs::read_to_string(root.join("README.md")).expect("the README");
    assert!(readme.contains(&shown.collect::<String>()));
}
