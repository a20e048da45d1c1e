//! Every case of "Rays and places tried".

#[path = "common/worked.rs"]
mod worked;

use reference::cast::{
    bounds_at, column, first_hit, full_cast, Column, FirstHit, FullCast, Mark, COLUMN_BYTES,
};
use reference::field::{Bounds, Ray};
use reference::lister::{input, list};
use reference::march::marching_cast;
use reference::part::{check, FileBuilder};
use std::ops::Range;
use worked::{at_y, file_k, AXIS};

/// The first and the last tick whose bit is set, with every bit between them.
fn solid(bits: &[u8]) -> Range<usize> {
    let bit = |tick: &usize| bits[tick / 8] >> (tick % 8) & 1 == 1;
    let ticks: Vec<usize> = (0..8 * bits.len()).filter(bit).collect();
    let after = ticks.last().map_or(0, |last| last + 1);
    let all = ticks.first().map_or(0, |first| *first)..after;
    assert!(all.clone().eq(ticks));
    all
}

fn both(low: i64, high: i64) -> Result<Bounds, u32> {
    Ok(Bounds { low, high })
}

#[test]
fn k_at_places() {
    let k = file_k();
    let four = 17_179_869_184;
    assert_eq!(bounds_at(&k, [0, 0, 0]), both(four, four));
    assert_eq!(bounds_at(&k, [512, 0, 0]), both(0, 0));
    let near = 4_296_802_500;
    assert_eq!(bounds_at(&k, [362, 0, 0]), both(near, near));
    assert_eq!(bounds_at(&k, [0, -362, 0]), both(near, near));
    assert_eq!(bounds_at(&k, [2047, 0, 0]), both(0, 0));
}

#[test]
fn radius_3_both_signs() {
    let file = |w| FileBuilder::new(1).point(3, [0; 3], w).build();
    let (low, high) = (3_393_528_516, 3_393_645_025);
    assert_eq!(bounds_at(&file(1), [1, 0, 0]), both(low, high));
    assert_eq!(bounds_at(&file(-1), [1, 0, 0]), both(-high, -low));
}

#[test]
fn lister_prints_the_axis_ray() {
    let expected = "empty 0 330\n\
                    crossing 330 331\n\
                    inside 331 693\n\
                    crossing 693 694\n\
                    empty 694 1024\n\
                    probes 39 complete\n";
    assert_eq!(list(&input(&AXIS, 2047, &file_k())), expected);
}

#[test]
fn first_hit_on_the_axis_ray() {
    let k = file_k();
    let hit = FirstHit::Hit {
        tick: 330,
        mark: Mark::Crossing,
        probes: 15,
    };
    for budget in [15, 16, 39, 2047, u32::MAX] {
        assert_eq!(first_hit(&k, &AXIS, budget), hit);
    }
    assert_eq!(hit.number(), (1 << 32) + (330 << 16) + 15);
}

#[test]
fn budget_14_is_spent_at_330() {
    let k = file_k();
    let spent = FirstHit::Spent {
        probes: 14,
        tick: 330,
    };
    assert_eq!(first_hit(&k, &AXIS, 14), spent);
    assert_eq!(spent.number(), (4 << 32) + (330 << 16) + 14);
    let mut marks = [9; 1024];
    let cast = full_cast(&k, &AXIS, 14, &mut marks);
    let expected = FullCast::Spent {
        probes: 14,
        tick: 330,
    };
    assert_eq!(cast, expected);
    assert_eq!(cast.number(), 131_072 + 14);
    assert!(marks[..330].iter().all(|&m| m == 0));
    assert!(marks[330..].iter().all(|&m| m == 3));
    let text = list(&input(&AXIS, 14, &k));
    assert_eq!(text, "empty 0 330\nprobes 14 spent 330\n");
}

#[test]
fn y_512_is_all_empty() {
    let k = file_k();
    let mut marks = [9; 1024];
    let cast = full_cast(&k, &at_y(512), 2047, &mut marks);
    assert_eq!(cast, FullCast::Complete { probes: 1 });
    assert_eq!(cast.number(), 65_537);
    assert_eq!(marks, [0; 1024]);
    let clear = first_hit(&k, &at_y(512), 1);
    assert_eq!(clear, FirstHit::Clear { probes: 1 });
    assert_eq!(clear.number(), (3 << 32) + 1);
    let text = list(&input(&at_y(512), 2047, &k));
    assert_eq!(text, "empty 0 1024\nprobes 1 complete\n");
}

#[test]
fn y_362_crosses_inside_509_and_514() {
    let expected = "empty 0 509\n\
                    crossing 509 510\n\
                    inside 510 514\n\
                    crossing 514 515\n\
                    empty 515 1024\n\
                    probes 39 complete\n";
    assert_eq!(list(&input(&at_y(362), 2047, &file_k())), expected);
    let mut bits = [9; COLUMN_BYTES];
    let done = column(&file_k(), &at_y(362), &mut bits);
    assert_eq!(done, Column::Done { probes: 39 });
    assert_eq!(done.number(), 65_575);
    let mut expected = [0; COLUMN_BYTES];
    expected[63] = 0b1110_0000;
    expected[64] = 0b0000_0111;
    assert_eq!(bits, expected);
}

/// The surface is 362.04 steps from the centre: 363 steps, the middle of ticks 330
/// and 693, are outside it. At y = 362 it is 5.3 steps from the axis: 5 steps, the
/// middle of ticks 509 and 514, are inside it.
#[test]
fn solid_ticks_of_file_k() {
    for (y, ticks) in [(0, 331..693), (362, 509..515), (512, 0..0)] {
        let mut bits = [9; COLUMN_BYTES];
        column(&file_k(), &at_y(y), &mut bits);
        assert_eq!(solid(&bits), ticks);
    }
}

#[test]
fn weights_4_and_minus_4_cancel() {
    let file = FileBuilder::new(1)
        .point(512, [0; 3], 4)
        .point(512, [0; 3], -4)
        .sum()
        .build();
    let mut marks = [9; 1024];
    let cast = full_cast(&file, &AXIS, 2047, &mut marks);
    assert!(matches!(cast, FullCast::Complete { probes } if probes > 1));
    assert_eq!(marks, [0; 1024]);
}

/// File K on the ray from a place to itself: the runs that the lister prints, the
/// probes of a march and of a first hit, its number without them, and a byte of the
/// column. At (362, 5, 2), 65536 u is 32767.75: the bounds are on both sides of iso,
/// and their sum is below twice that.
#[test]
fn ends_that_coincide() {
    let k = file_k();
    let inside = ("inside 0 1024\nprobes 1 complete\n", 5, 1, 2 << 32, 0xff);
    let empty = ("empty 0 1024\nprobes 1 complete\n", 5, 1, 3 << 32, 0);
    let crossing = (
        "crossing 0 1024\nprobes 2047 complete\n",
        2052,
        11,
        1 << 32,
        0,
    );
    for (at, (text, march, hit, kind, byte)) in [
        ([5, 6, 7], inside),
        ([256, 256, 0], inside),
        ([362, 5, 2], crossing),
        ([512, 0, 0], empty),
        ([2047, -2047, 2047], empty),
    ] {
        let ray = Ray { a: at, b: at };
        assert_eq!(list(&input(&ray, 2047, &k)), text);
        let mut marks = [[9; 1024]; 2];
        full_cast(&k, &ray, 2047, &mut marks[0]);
        let probes = march;
        let cast = marching_cast(&k, &ray, 2052, &mut marks[1]);
        assert_eq!(cast, FullCast::Complete { probes });
        assert_eq!(marks[0], marks[1]);
        assert_eq!(first_hit(&k, &ray, 2047).number(), kind + hit);
        let mut bits = [9; 129];
        column(&k, &ray, &mut bits);
        assert!(bits[..128].iter().all(|&b| b == byte) && bits[128] == 9);
    }
}

#[test]
fn coordinate_limits() {
    let k = file_k();
    for value in [2048, -2048, 65_536, 65_535, i32::MAX, i32::MIN] {
        for i in 0..6 {
            let mut ray = AXIS;
            let end = if i < 3 { &mut ray.a } else { &mut ray.b };
            end[i % 3] = value;
            assert_eq!(first_hit(&k, &ray, 9), FirstHit::Refused(12));
            assert_eq!(column(&k, &ray, &mut []), Column::Refused(12));
            let cast = full_cast(&k, &ray, 9, &mut []);
            assert_eq!(cast, FullCast::Refused(12));
        }
        for i in 0..3 {
            let mut at = [0; 3];
            at[i] = value;
            assert_eq!(bounds_at(&k, at), Err(12));
        }
    }
    for value in [2047, -2047] {
        for i in 0..3 {
            let mut at = [0; 3];
            at[i] = value;
            assert!(bounds_at(&k, at).is_ok());
            let ray = Ray {
                a: at,
                b: [1, 1, 1],
            };
            assert!(first_hit(&k, &ray, 9).probes().is_some());
            let ray = Ray {
                a: [1, 1, 1],
                b: at,
            };
            assert!(first_hit(&k, &ray, 9).probes().is_some());
        }
    }
}

#[test]
fn order_of_questions_12_and_14() {
    let k = file_k();
    let far = Ray {
        a: [2048, 0, 0],
        b: [2048, 0, 0],
    };
    assert_eq!(first_hit(&k, &far, 0), FirstHit::Refused(12));
    assert_eq!(full_cast(&k, &far, 0, &mut []), FullCast::Refused(12));
    let point = Ray {
        a: [1, 0, 0],
        b: [1, 0, 0],
    };
    assert_eq!(full_cast(&k, &point, 0, &mut []), FullCast::Refused(14));
    assert_eq!(column(&k, &point, &mut []), Column::Refused(14));
    let bad = FileBuilder::new(1).point(0, [0; 3], 4).build();
    assert_eq!(full_cast(&bad, &far, 0, &mut []), FullCast::Refused(8));
    assert_eq!(bounds_at(&bad, [2048, 0, 0]), Err(8));
    let open = FileBuilder::new(1).point(1, [0; 3], 4).point(1, [0; 3], 4);
    assert_eq!(first_hit(&open.build(), &far, 0), FirstHit::Refused(11));
}

#[test]
fn refused_files() {
    let k = FileBuilder::new(1).point(512, [0; 3], 4);
    let bad = k.clone().mark([0; 4]).version(9).build();
    assert_eq!(check(&bad), Err(2));
    let radius = |r| FileBuilder::new(1).point(r, [0; 3], 4).build();
    assert_eq!(check(&radius(1024)), Ok((1, 1)));
    assert_eq!(check(&radius(1025)), Err(8));
    assert_eq!(check(&FileBuilder::new(1).sum().build()), Err(9));
    let held = (0..65).fold(FileBuilder::new(1), |b, _| b.point(1, [0; 3], 1));
    assert_eq!(check(&held.build()), Err(10));
    let centre = FileBuilder::new(1).point(1, [-2048, 0, 0], 1);
    assert_eq!(check(&centre.build()), Err(8));
}

#[test]
fn buffer_lengths() {
    let k = file_k();
    for length in [0, 1, 127, 128, 1022, 1023] {
        let mut buffer = vec![9; length];
        let cast = full_cast(&k, &AXIS, 2047, &mut buffer);
        assert_eq!(cast, FullCast::Refused(14));
        assert!(buffer.iter().all(|&b| b == 9));
    }
    for length in [0, 1, 127] {
        let mut buffer = vec![9; length];
        assert_eq!(column(&k, &AXIS, &mut buffer), Column::Refused(14));
        assert!(buffer.iter().all(|&b| b == 9));
    }
    for length in [1024, 1025, 4000] {
        let mut buffer = vec![9; length];
        let cast = full_cast(&k, &AXIS, 2047, &mut buffer);
        assert_eq!(cast, FullCast::Complete { probes: 39 });
        assert!(buffer[..1024].iter().all(|&b| b < 3));
        assert!(buffer[1024..].iter().all(|&b| b == 9));
    }
    for length in [128, 129, 1024] {
        let mut buffer = vec![9; length];
        let done = column(&k, &AXIS, &mut buffer);
        assert_eq!(done, Column::Done { probes: 39 });
        assert_eq!(solid(&buffer[..128]), 331..693);
        assert!(buffer[128..].iter().all(|&b| b == 9));
    }
}

#[test]
fn budget_0_is_spent_at_once() {
    let k = file_k();
    let mut marks = [9; 1025];
    let cast = full_cast(&k, &AXIS, 0, &mut marks);
    assert_eq!(cast, FullCast::Spent { probes: 0, tick: 0 });
    assert_eq!(cast.number(), 131_072);
    assert!(marks[..1024].iter().all(|&m| m == 3));
    assert_eq!(marks[1024], 9);
    let spent = FirstHit::Spent { probes: 0, tick: 0 };
    assert_eq!(first_hit(&k, &AXIS, 0), spent);
    assert_eq!(spent.number(), 4 << 32);
    let text = list(&input(&AXIS, 0, &k));
    assert_eq!(text, "probes 0 spent 0\n");
}

#[test]
fn an_inside_hit() {
    let file = FileBuilder::new(1).point(1024, [0; 3], 4096).build();
    let ray = Ray {
        a: [1, 0, 0],
        b: [2, 0, 0],
    };
    let hit = FirstHit::Hit {
        tick: 0,
        mark: Mark::Inside,
        probes: 1,
    };
    assert_eq!(first_hit(&file, &ray, 1), hit);
    assert_eq!(hit.number(), (2 << 32) + 1);
    let text = list(&input(&ray, 1, &file));
    assert_eq!(text, "inside 0 1024\nprobes 1 complete\n");
}

#[test]
fn lister_refusals() {
    let whole = input(&AXIS, 2047, &file_k());
    for length in 0..38 {
        assert_eq!(list(&whole[..length]), "refused 1\n");
    }
    let mut bad = whole.clone();
    bad[37] ^= 1;
    assert_eq!(list(&bad), "refused 2\n");
    let mut far = whole.clone();
    far[..2].copy_from_slice(&2048i16.to_le_bytes());
    assert_eq!(list(&far), "refused 12\n");
    let mut over = whole[..14].to_vec();
    over.extend(vec![0; 65_513]);
    over.extend(&whole[14..]);
    assert_eq!(list(&over), "refused 1\n");
    over.remove(14);
    assert!(list(&over).ends_with("probes 39 complete\n"));
}
