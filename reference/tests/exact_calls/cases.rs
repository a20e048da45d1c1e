//! Every case of "Rays and places tried", in the words of document 01.

use crate::calls::{check, place_bounds, Host};
use crate::worked::{at_y, file_k, AXIS};
use reference::cast::{Column, FirstHit, FullCast, Mark};
use reference::field::{Bounds, Ray};
use reference::part::FileBuilder;
use reference::view::{in_millimetres, ViewerHit};

fn single(r: u16, w: i16) -> Vec<u8> {
    FileBuilder::new(1).point(r, [0; 3], w).build()
}

/// The runs of equal marks: the mark, the first tick and the one after the last.
fn runs(marks: &[u8]) -> Vec<(u8, usize, usize)> {
    let mut runs = Vec::new();
    let mut first = 0;
    for run in marks.chunk_by(|left, right| left == right) {
        runs.push((run[0], first, first + run.len()));
        first += run.len();
    }
    runs
}

/// The ticks whose bits are set.
fn solid(bits: &[u8]) -> Vec<usize> {
    let bit = |tick: &usize| bits[tick / 8] >> (tick % 8) & 1 == 1;
    (0..8 * bits.len()).filter(bit).collect()
}

/// A full cast and a column complete with these probes, the cast with these runs,
/// and a marching cast with the same runs. The bits that the column sets.
fn assert_cast(file: &[u8], ray: &Ray, probes: u32, expected: &[(u8, usize, usize)]) -> Vec<usize> {
    let mut host = Host::default();
    for room in [1024, 1030] {
        let (cast, marks) = host.full_cast(file, ray, 2047, room);
        assert_eq!(cast, FullCast::Complete { probes });
        assert_eq!(runs(&marks), expected);
        let (cast, marks) = host.marching_cast(file, ray, 2052, room);
        assert!(matches!(cast, FullCast::Complete { .. }));
        assert_eq!(runs(&marks), expected);
    }
    let (column, bits) = host.column_and_bits(file, ray, 128);
    assert_eq!(column, Column::Done { probes });
    solid(&bits)
}

/// All casting calls refuse with the number, the viewer's with 15 for 12.
fn assert_refused(file: &[u8], ray: &Ray, number: u32) {
    let mut host = Host::default();
    let (cast, _) = host.full_cast(file, ray, 2047, 1024);
    assert_eq!(cast, FullCast::Refused(number));
    let (cast, _) = host.marching_cast(file, ray, 2052, 1024);
    assert_eq!(cast, FullCast::Refused(number));
    assert_eq!(host.column(file, ray, 128), Column::Refused(number));
    let hit = host.first_hit(file, ray, 2047);
    assert_eq!(hit, FirstHit::Refused(number));
    let hit = host.viewer_first_hit(file, &in_millimetres(ray), 2047);
    let viewed = if number == 12 { 15 } else { number };
    assert_eq!(hit, ViewerHit::Refused(viewed));
}

#[test]
fn places() {
    let both = |low, high| Ok(Bounds { low, high });
    let k = file_k();
    let (four, near) = (17_179_869_184, 4_296_802_500);
    assert_eq!(place_bounds(&k, [0, 0, 0]), both(four, four));
    assert_eq!(place_bounds(&k, [512, 0, 0]), both(0, 0));
    assert_eq!(place_bounds(&k, [362, 0, 0]), both(near, near));
    let (low, high) = (3_393_528_516, 3_393_645_025);
    assert_eq!(place_bounds(&single(3, 1), [1, 0, 0]), both(low, high));
    let other = place_bounds(&single(3, -1), [1, 0, 0]);
    assert_eq!(other, both(-high, -low));
}

#[test]
fn rays_of_file_k() {
    let k = file_k();
    assert_eq!(check(&k), Ok((1, 1)));
    let axis = [
        (0, 0, 330),
        (1, 330, 331),
        (2, 331, 693),
        (1, 693, 694),
        (0, 694, 1024),
    ];
    let bits = assert_cast(&k, &AXIS, 39, &axis);
    assert!(bits.into_iter().eq(331..=692));
    let bits = assert_cast(&k, &at_y(512), 1, &[(0, 0, 1024)]);
    assert!(bits.is_empty());
    let near = [
        (0, 0, 509),
        (1, 509, 510),
        (2, 510, 514),
        (1, 514, 515),
        (0, 515, 1024),
    ];
    let bits = assert_cast(&k, &at_y(362), 39, &near);
    assert!(bits.into_iter().eq(509..=514));
    let clear = Host::default().first_hit(&k, &at_y(512), 2047);
    assert_eq!(clear, FirstHit::Clear { probes: 1 });
}

#[test]
fn marches_of_file_k() {
    let k = file_k();
    let mut host = Host::default();
    for (ray, probes) in [(AXIS, 49), (at_y(512), 5)] {
        for budget in 0..probes {
            let (cast, _) = host.marching_cast(&k, &ray, budget, 1024);
            assert_eq!(cast.number(), 131_072 + budget);
        }
        for budget in [probes, probes + 1, 2052, u32::MAX] {
            let (cast, _) = host.marching_cast(&k, &ray, budget, 1024);
            assert_eq!(cast, FullCast::Complete { probes });
        }
    }
}

#[test]
fn first_hits_of_file_k() {
    let k = file_k();
    let view = in_millimetres(&AXIS);
    let mut host = Host::default();
    let (tick, mark, entry) = (330, Mark::Crossing, 330.0 / 1024.0);
    let probes = 15;
    let hit = FirstHit::Hit { tick, mark, probes };
    assert_eq!(host.first_hit(&k, &AXIS, 2047), hit);
    let hit = ViewerHit::Hit {
        entry,
        mark,
        probes,
    };
    assert_eq!(host.viewer_first_hit(&k, &view, 2047), hit);
    let probes = 14;
    let spent = FirstHit::Spent { probes, tick };
    assert_eq!(host.first_hit(&k, &AXIS, 14), spent);
    let spent = ViewerHit::Spent {
        reached: entry,
        probes,
    };
    assert_eq!(host.viewer_first_hit(&k, &view, 14), spent);
    let (cast, marks) = host.full_cast(&k, &AXIS, 14, 1024);
    assert_eq!(cast, FullCast::Spent { probes, tick });
    assert_eq!(runs(&marks), [(0, 0, 330), (3, 330, 1024)]);
}

#[test]
fn weights_4_and_minus_4_cancel() {
    let builder = FileBuilder::new(1).point(512, [0; 3], 4);
    let file = builder.point(512, [0; 3], -4).sum().build();
    let mut host = Host::default();
    let (cast, _) = host.full_cast(&file, &AXIS, 2047, 1024);
    let probes = cast.probes().expect("accepted");
    assert!(probes > 1);
    let bits = assert_cast(&file, &AXIS, probes, &[(0, 0, 1024)]);
    assert!(bits.is_empty());
    let hit = host.first_hit(&file, &AXIS, 2047);
    assert_eq!(hit, FirstHit::Clear { probes });
}

/// Every tick is the one place, whose bounds mark it; the bits where the place is
/// undecided go by their sum.
#[test]
fn ends_that_coincide() {
    let k = file_k();
    for (at, probes, mark, solid) in [
        ([5, 6, 7], 1, 2, 1024),
        ([256, 256, 0], 1, 2, 1024),
        ([362, 5, 2], 2047, 1, 0),
        ([512, 0, 0], 1, 0, 0),
        ([2047, -2047, 2047], 1, 0, 0),
    ] {
        let ray = Ray { a: at, b: at };
        let bits = assert_cast(&k, &ray, probes, &[(mark, 0, 1024)]);
        assert_eq!(bits.len(), solid);
        let mut host = Host::default();
        let hit = host.first_hit(&k, &ray, 2047);
        let viewed = host.viewer_first_hit(&k, &in_millimetres(&ray), 2047);
        assert_eq!(viewed.in_ticks(), hit);
        let (tick, mark) = (
            0,
            [Mark::Empty, Mark::Crossing, Mark::Inside][mark as usize],
        );
        let expected = match mark {
            Mark::Empty => FirstHit::Clear { probes },
            Mark::Crossing => FirstHit::Hit {
                tick,
                mark,
                probes: 11,
            },
            Mark::Inside => FirstHit::Hit { tick, mark, probes },
        };
        assert_eq!(hit, expected);
    }
}

#[test]
fn refused_rays() {
    let k = file_k();
    let b = [5, 6, 7];
    for far in [2048, -2048] {
        let ray = Ray { a: [0, far, 0], b };
        assert_refused(&k, &ray, 12);
        assert_eq!(place_bounds(&k, [0, 0, far]), Err(12));
    }
    for far in [2047, -2047] {
        let ray = Ray { a: [0, far, 0], b };
        let mut host = Host::default();
        assert!(host.full_cast(&k, &ray, 2047, 1024).0.probes().is_some());
        let (cast, _) = host.marching_cast(&k, &ray, 2052, 1024);
        assert!(cast.probes().is_some());
        assert!(host.first_hit(&k, &ray, 2047).probes().is_some());
        let hit = host.viewer_first_hit(&k, &in_millimetres(&ray), 2047);
        assert!(hit.probes().is_some());
        assert!(place_bounds(&k, [0, 0, far]).is_ok());
    }
}

#[test]
fn refused_files() {
    let k = FileBuilder::new(1).point(512, [0; 3], 4);
    let held = (0..65).fold(FileBuilder::new(1), |b, _| b.point(1, [0; 3], 1));
    let refused = [
        (k.mark([0; 4]).version(9).build(), 2),
        (single(1025, 4), 8),
        (FileBuilder::new(1).sum().build(), 9),
        (held.build(), 10),
    ];
    for (file, number) in &refused {
        assert_refused(file, &AXIS, *number);
        assert_eq!(check(file), Err(*number));
        assert_eq!(place_bounds(file, [0; 3]), Err(*number));
    }
    let wide = single(1024, 4);
    assert_eq!(check(&wide), Ok((1, 1)));
    let hit = Host::default().first_hit(&wide, &AXIS, 2047);
    assert!(hit.probes().is_some());
}

#[test]
fn refused_buffers() {
    let mut host = Host::default();
    let (cast, _) = host.full_cast(&file_k(), &AXIS, 2047, 1023);
    assert_eq!(cast, FullCast::Refused(14));
    let (cast, _) = host.marching_cast(&file_k(), &AXIS, 2052, 1023);
    assert_eq!(cast, FullCast::Refused(14));
    let column = host.column(&file_k(), &AXIS, 127);
    assert_eq!(column, Column::Refused(14));
}
