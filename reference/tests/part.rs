//! Questions 1 to 11: each on both sides of its limits, and pairs of faults.

use reference::cast::{bounds_at, column, first_hit, full_cast, Column, FirstHit, FullCast};
use reference::field::Ray;
use reference::generate::fault;
use reference::march::marching_cast;
use reference::part::{check, operator_record, point_record, read, Degree, FileBuilder, Kind};
use reference::part::{OPERATORS, RECORD};
use reference::view::{viewer_first_hit, ViewRay, ViewerHit};

const RAY: Ray = Ray {
    a: [-1024, 0, 0],
    b: [1024, 0, 0],
};

fn one_point() -> FileBuilder {
    FileBuilder::new(1).point(512, [0, 0, 0], 4)
}

/// Two points joined by a sum: three records.
fn two_points() -> FileBuilder {
    one_point().point(100, [1, 2, 3], -4).sum()
}

fn assert_refused(file: &[u8], number: u32) {
    assert_eq!(check(file), Err(number));
    assert_eq!(bounds_at(file, [0, 0, 0]), Err(number));
    let mut buffer = [0xa5; 1100];
    let cast = full_cast(file, &RAY, 2047, &mut buffer);
    assert_eq!(cast, FullCast::Refused(number));
    let cast = marching_cast(file, &RAY, 2052, &mut buffer);
    assert_eq!(cast, FullCast::Refused(number));
    assert_eq!(column(file, &RAY, &mut buffer), Column::Refused(number));
    assert_eq!(first_hit(file, &RAY, 2047), FirstHit::Refused(number));
    let view = ViewRay {
        a: [-16.0, 0.0, 0.0],
        b: [16.0, 0.0, 0.0],
    };
    let viewed = viewer_first_hit(file, view, 2047);
    assert_eq!(viewed, ViewerHit::Refused(number));
    assert!(buffer.iter().all(|&byte| byte == 0xa5));
}

fn assert_accepted(file: &[u8], count: u32, iso: u32) {
    assert_eq!(check(file), Ok((count, iso)));
}

#[test]
fn file_k_is_the_bytes_given() {
    let k = [
        0x01, 0x00, 0x00, 0x02, 0x00, 0x00, 0x00, 0x00, 0x00, 0x00, 0x04, 0x00, 0x01, 0x00, 0x01,
        0x00, 0x18, 0x00, 0x00, 0x00, 0x54, 0x52, 0x45, 0x45,
    ];
    assert_eq!(one_point().build(), k);
    assert_accepted(&k, 1, 1);
}

#[test]
fn nodes_are_decoded() {
    let file = FileBuilder::new(4096)
        .point(1024, [-2047, 2047, -1], -4096)
        .point(1, [258, -258, 0], 4096)
        .greater()
        .build();
    let part = read(&file).expect("accepted");
    assert_eq!(part.iso, 4096);
    let first = part.nodes[0];
    assert_eq!((first.kind, first.r), (Kind::Point, 1024));
    assert_eq!((first.x, first.y, first.z), (-2047, 2047, -1));
    assert_eq!(first.w, -4096);
    let second = part.nodes[1];
    assert_eq!((second.r, second.x, second.y), (1, 258, -258));
    assert_eq!((second.z, second.w), (0, 4096));
    assert_eq!(part.nodes[2].kind, Kind::Greater);
    assert_eq!(FileBuilder::from(&part).build(), file);
}

#[test]
fn question_1_length() {
    let k = one_point().build();
    for length in 0..24 {
        assert_refused(&vec![0; length], 1);
        assert_refused(&k[24 - length..], 1);
    }
    assert_accepted(&k, 1, 1);
    let padded = |total: usize| one_point().leading(&vec![7; total - 24]).build();
    assert_accepted(&padded(65_535), 1, 1);
    assert_accepted(&padded(65_536), 1, 1);
    assert_refused(&padded(65_537), 1);
    assert_refused(&padded(100_000), 1);
    assert_refused(&[0; 24], 2);
    assert_refused(&[0xff; 65_536], 2);
    assert_refused(&[0xff; 65_537], 1);
}

#[test]
fn question_2_mark() {
    let k = one_point().build();
    for position in 20..24 {
        for bit in 0..8 {
            let mut file = k.clone();
            file[position] ^= 1 << bit;
            assert_refused(&file, 2);
        }
    }
    assert_refused(&one_point().mark([0x45, 0x45, 0x52, 0x54]).build(), 2);
}

#[test]
fn question_3_version() {
    for version in 0..=65_535 {
        let file = one_point().version(version).build();
        let degree = match version {
            1 => Ok(Degree::Four),
            2 => Ok(Degree::Six),
            _ => Err(3),
        };
        assert_eq!(check(&file), degree.map(|_| (1, 1)));
        assert_eq!(read(&file).map(|part| part.degree), degree);
    }
    for version in [0, 3, 4, 0x0101, 0x0102, 0x0201, 0xffff] {
        assert_refused(&one_point().version(version).build(), 3);
    }
}

#[test]
fn question_4_distance() {
    let long = FileBuilder::new(1).leading(&[0; 6144]).point(1, [0; 3], 1);
    for distance in 0..7000u32 {
        let file = long.clone().distance(distance).build();
        let passes = (24..=6144).contains(&distance) && distance % 12 == 0;
        assert_eq!(check(&file) == Err(4), !passes, "{distance}");
    }
    for distance in [0, 11, 12, 13, 23, 25, 35, 6145, 6155, 6156, u32::MAX] {
        assert_refused(&long.clone().distance(distance).build(), 4);
    }
    for distance in [0x1_0018, 0x8000_0018, 0xffff_ffe8] {
        assert_refused(&long.clone().distance(distance).build(), 4);
    }
    let k = one_point();
    assert_accepted(&k.clone().distance(24).build(), 1, 1);
    assert_refused(&k.clone().distance(36).build(), 4);
    let eleven = k.clone().leading(&[0; 11]);
    assert_refused(&eleven.distance(36).build(), 4);
    let twelve = k.leading(&operator_record(9));
    assert_refused(&twelve.distance(36).build(), 6);
}

#[test]
fn most_records() {
    let mut builder = one_point();
    for _ in 0..255 {
        builder = builder.point(1, [0; 3], 0).sum();
    }
    assert_eq!(builder.build().len(), 6144);
    assert_accepted(&builder.build(), 511, 1);
    let more = builder.point(1, [0; 3], 0);
    assert_refused(&more.build(), 4);
    let leading = more.sum().leading(&[1; 5]);
    assert_refused(&leading.build(), 4);
}

#[test]
fn question_5_iso() {
    for iso in 0..=65_535 {
        let expected = if (1..=4096).contains(&iso) {
            Ok((1, u32::from(iso)))
        } else {
            Err(5)
        };
        assert_eq!(check(&one_point().iso(iso).build()), expected);
    }
    for iso in [0, 4097, 0x8001, 0xffff] {
        assert_refused(&one_point().iso(iso).build(), 5);
    }
}

#[test]
fn question_6_kind() {
    for kind in 0..=255u8 {
        let mut record = point_record(5, [0; 3], 1);
        record[0] = kind;
        let expected = match kind {
            1 => Ok((1, 1)),
            2..=5 => Err(7),
            _ => Err(6),
        };
        assert_eq!(check(&FileBuilder::new(1).raw(record).build()), expected);
        let joined = one_point()
            .point(1, [0; 3], 1)
            .raw(operator_record(kind))
            .build();
        let expected = match kind {
            1 => Err(8),
            2..=5 => Ok((3, 1)),
            _ => Err(6),
        };
        assert_eq!(check(&joined), expected);
    }
}

#[test]
fn question_7_zero_bytes() {
    for value in 1..=255u8 {
        let mut record = point_record(5, [0; 3], 1);
        record[1] = value;
        assert_eq!(check(&FileBuilder::new(1).raw(record).build()), Err(7));
    }
    for kind in OPERATORS {
        for position in 1..RECORD {
            for value in [1, 2, 128, 255] {
                let mut record = operator_record(kind as u8);
                record[position] = value;
                let file = one_point().point(1, [0; 3], 1).raw(record).build();
                assert_refused(&file, 7);
            }
        }
    }
}

#[test]
fn question_8_radius_and_weight() {
    for r in 0..=65_535 {
        let file = FileBuilder::new(1).point(r, [0; 3], 1).build();
        let passes = (1..=1024).contains(&r);
        assert_eq!(check(&file), if passes { Ok((1, 1)) } else { Err(8) });
    }
    for w in i16::MIN..=i16::MAX {
        let file = FileBuilder::new(1).point(1, [0; 3], w).build();
        let passes = (-4096..=4096).contains(&w);
        assert_eq!(check(&file), if passes { Ok((1, 1)) } else { Err(8) });
    }
    for (r, w) in [(0, 1), (1025, 1), (1, 4097), (1, -4097)] {
        let file = FileBuilder::new(1).point(r, [0; 3], w).build();
        assert_refused(&file, 8);
    }
}

#[test]
fn question_8_coordinates() {
    for axis in 0..3 {
        for c in i16::MIN..=i16::MAX {
            let mut centre = [0; 3];
            centre[axis] = c;
            let file = FileBuilder::new(1).point(1, centre, 1).build();
            let passes = (-2047..=2047).contains(&c);
            assert_eq!(check(&file), if passes { Ok((1, 1)) } else { Err(8) });
        }
        for c in [-2048, 2048] {
            let mut centre = [0; 3];
            centre[axis] = c;
            assert_refused(&FileBuilder::new(1).point(1, centre, 1).build(), 8);
        }
    }
}

#[test]
fn question_9_values_for_an_operator() {
    for kind in OPERATORS {
        let operator = operator_record(kind as u8);
        assert_refused(&FileBuilder::new(1).raw(operator).build(), 9);
        assert_refused(&one_point().raw(operator).build(), 9);
        assert_refused(&two_points().raw(operator).build(), 9);
        assert_accepted(&one_point().point(1, [0; 3], 1).raw(operator).build(), 3, 1);
    }
}

#[test]
fn question_10_values_held() {
    let points = |n: usize| (0..n).fold(FileBuilder::new(1), |b, _| b.point(1, [0; 3], 1));
    let sums = |b: FileBuilder, n: usize| (0..n).fold(b, |b, _| b.sum());
    assert_accepted(&sums(points(64), 63).build(), 127, 1);
    assert_refused(&sums(points(65), 64).build(), 10);
    assert_refused(&points(65).build(), 10);
    assert_refused(&points(64).build(), 11);
    let again = sums(points(64).sum().point(1, [0; 3], 1), 63);
    assert_accepted(&again.build(), 129, 1);
    let over = points(64).sum().point(1, [0; 3], 1).point(1, [0; 3], 1);
    assert_refused(&over.build(), 10);
}

#[test]
fn question_11_one_value_at_the_end() {
    assert_refused(&one_point().point(1, [0; 3], 1).build(), 11);
    assert_refused(&two_points().point(1, [0; 3], 1).build(), 11);
    assert_accepted(&two_points().build(), 3, 1);
    assert_accepted(&one_point().build(), 1, 1);
}

#[test]
fn leading_bytes_are_ignored() {
    let plain = two_points();
    for length in [1, 5, 11, 12, 13, 24, 1000, 65_488] {
        for value in [0, 1, 2, 0x54, 0xff] {
            let file = plain.clone().leading(&vec![value; length]).build();
            assert_eq!(read(&file), read(&plain.build()));
            assert_eq!(
                bounds_at(&file, [5, 6, 7]),
                bounds_at(&plain.build(), [5, 6, 7])
            );
        }
    }
    let whole = one_point().build();
    assert_accepted(&plain.leading(&whole).build(), 3, 1);
}

#[test]
fn single_faults() {
    for question in 1..=11 {
        assert_refused(&fault(two_points(), question).build(), question);
    }
}

#[test]
fn pairs_of_faults_in_the_trailer() {
    for first in 1..=5 {
        for second in first + 1..=11 {
            let both = fault(fault(two_points(), second), first);
            assert_refused(&both.build(), first);
        }
    }
}

#[test]
fn pairs_of_faults_in_different_records() {
    for first in 6..=10 {
        for second in 6..=10 {
            let both = fault(fault(two_points(), first), second);
            assert_refused(&both.build(), first);
        }
        let two_values = fault(one_point().point(1, [0; 3], 1), first);
        assert_refused(&two_values.point(1, [0; 3], 1).build(), first);
    }
}

#[test]
fn pairs_of_faults_in_one_record() {
    let full = (0..64).fold(FileBuilder::new(1), |b, _| b.point(1, [0; 3], 1));
    let mut kind_and_zero = point_record(0, [2048, 0, 0], 5000);
    kind_and_zero[0] = 0;
    kind_and_zero[1] = 1;
    assert_refused(&full.clone().raw(kind_and_zero).build(), 6);
    let mut zero_and_range = point_record(0, [2048, 0, 0], 5000);
    zero_and_range[1] = 1;
    assert_refused(&full.clone().raw(zero_and_range).build(), 7);
    assert_refused(&full.clone().point(0, [0; 3], 1).build(), 8);
    assert_refused(&full.clone().point(1, [0; 3], 4097).build(), 8);
    assert_refused(&full.point(1, [0; 3], 1).build(), 10);
    for kind in OPERATORS {
        let mut operator = operator_record(kind as u8);
        operator[11] = 1;
        assert_refused(&FileBuilder::new(1).raw(operator).build(), 7);
        assert_refused(&one_point().raw(operator).build(), 7);
    }
}
