//! Every graze cast: the marks, the probes, the column and the first hits of the
//! archive are those of the exact fractions, and a ball changes them exactly if
//! the ray comes within its radius.

use crate::calls::{check, place_bounds, Host};
use crate::parts::{added, alone, joined, paired, without, Order, Sign, ORDERS, SIGNS};
use crate::plain::plain_column;
use crate::rays::{grazes, Class, Graze, WHOLE};
use reference::cast::FullCast;
use reference::field::Ray;
use reference::fraction::Fraction;
use reference::part::{read, FileBuilder, Kind, Node, OPERATORS};
use reference::view::in_millimetres;
use std::collections::BTreeMap;

/// What a full cast answers, and its marks.
type Cast = (FullCast, Vec<u8>);

/// A full cast and a column of the archive, and the benchmark's plain column.
pub fn cast(host: &mut Host, file: &[u8], ray: &Ray) -> Cast {
    let (answer, marks) = host.full_cast(file, ray, 2047, 1024);
    let (column, bits) = host.column_and_bits(file, ray, 128);
    let probes = column.probes().expect("an accepted file and ray");
    assert_eq!(answer, FullCast::Complete { probes });
    let mut plain = [0xa5; 128];
    let number = plain_column(file, ray, &mut plain);
    assert_eq!(number, column.number(), "{ray:?} {file:?}");
    assert_eq!(plain[..], bits, "{ray:?} {file:?}");
    (answer, marks)
}

/// Those, the first hits, and the check of the file.
fn cast_all(host: &mut Host, file: &[u8], ray: &Ray) -> Cast {
    host.first_hit(file, ray, 2047);
    host.viewer_first_hit(file, &in_millimetres(ray), 2047);
    assert!(check(file).is_ok());
    cast(host, file, ray)
}

/// The part's cast, and that of the part with the ball's weight 0.
fn with_and_without(host: &mut Host, builder: &FileBuilder, graze: &Graze) -> [Cast; 2] {
    let file = builder.build();
    let part = read(&file).expect("an accepted file");
    let ball = graze.ball(0);
    let rest = without(&part, |&point| Node { w: 0, ..point } == ball);
    let rest = FileBuilder::from(&rest).build();
    let with = cast_all(host, &file, &graze.ray);
    [with, cast(host, &rest, &graze.ray)]
}

/// Whether a graze comes within is as said, by fractions.
#[test]
fn grazes_come_within_or_not() {
    let mut counts = BTreeMap::new();
    for graze in grazes() {
        let within = graze.greatest_u(WHOLE) > Fraction::zero();
        assert_eq!(within, graze.within, "{graze:?}");
        let class = format!("{:?} {}", graze.class, graze.within);
        *counts.entry(class).or_insert(0) += 1;
    }
    println!("{counts:?}");
    assert_eq!(counts.values().sum::<u32>(), 4_727);
    let rare = counts.values().any(|&count| count < 30);
    assert!(counts.len() == 8 && !rare, "{counts:?}");
}

/// Whether a ball alone or paired may change the cast, and whether it must: where a
/// ray comes a step within r 65 or less.
fn may_and_must(graze: &Graze, sign: Sign) -> (bool, bool) {
    let may = graze.within && sign == Sign::Plus;
    let whole = matches!(graze.class, Class::Tangent | Class::End);
    (may, may && whole && graze.r <= 65)
}

/// Casts of the ball, and its bounds at the whole place near the ray's nearest and
/// at its ends.
fn assert_alone(host: &mut Host, graze: &Graze, sign: Sign) {
    let part = alone(graze, sign);
    let [with, rest] = with_and_without(host, &part, graze);
    let (may, must) = may_and_must(graze, sign);
    let right = if with == rest { !must } else { may };
    assert!(right, "{graze:?} {sign:?}");
    for at in [graze.near, graze.ray.a, graze.ray.b] {
        place_bounds(&part.build(), at).expect("an accepted place");
    }
}

#[test]
fn a_ball_alone() {
    let mut host = Host::default();
    for graze in grazes() {
        SIGNS
            .iter()
            .for_each(|&sign| assert_alone(&mut host, &graze, sign));
    }
}

#[test]
fn a_ball_changes_the_cast_exactly_if_the_ray_comes_within() {
    let mut host = Host::default();
    for graze in grazes() {
        let part = added(&graze, Sign::Plus);
        let [with, rest] = with_and_without(&mut host, &part, &graze);
        assert_eq!(with != rest, graze.within, "{graze:?}");
        assert_eq!(rest, (FullCast::Complete { probes: 1 }, vec![0; 1024]));
    }
}

/// An operator, a sign and an order.
type Join = (Kind, Sign, Order);

fn joins() -> impl Iterator<Item = Join> {
    let kinds = OPERATORS.into_iter();
    let signs = kinds.flat_map(|kind| SIGNS.map(|sign| (kind, sign)));
    signs.flat_map(|(kind, sign)| ORDERS.map(|order| (kind, sign, order)))
}

/// The ball as an operand.
fn assert_paired(host: &mut Host, graze: &Graze, (kind, sign, order): Join) {
    let part = paired(graze, sign, kind, order);
    let [with, rest] = with_and_without(host, &part, graze);
    let (may, must) = may_and_must(graze, sign);
    let right = if with == rest { !must } else { may };
    assert!(right, "{graze:?} {kind:?} {sign:?} {order:?}");
    place_bounds(&part.build(), graze.near).expect("an accepted place");
}

/// The sum of another point and the ball as an operand. The ball changes the cast
/// exactly if the ray comes within; along a chord one of negative weight may change
/// nothing.
fn assert_joined(host: &mut Host, graze: &Graze, (kind, sign, order): Join) {
    let part = joined(graze, sign, kind, order);
    let [with, rest] = with_and_without(host, &part, graze);
    let changed = with != rest;
    let may_not = graze.class == Class::Chord && sign == Sign::Minus;
    let right = changed == graze.within || may_not && !changed;
    assert!(right, "{graze:?} {kind:?} {sign:?} {order:?}");
    place_bounds(&part.build(), graze.near).expect("an accepted place");
}

/// Some grazes of each class, of large balls and of small ones.
fn some() -> impl Iterator<Item = Graze> {
    let one_in = |graze: &Graze| match graze.class {
        Class::Chord => 9,
        Class::Moved if graze.r > 65 => 59,
        _ => 7,
    };
    let all = grazes().into_iter().enumerate();
    all.filter_map(move |(i, graze)| (i % one_in(&graze) == 0).then_some(graze))
}

#[test]
fn balls_joined_by_each_operator() {
    let mut host = Host::default();
    let mut counts = BTreeMap::new();
    for graze in some() {
        joins().for_each(|join| assert_paired(&mut host, &graze, join));
        joins().for_each(|join| assert_joined(&mut host, &graze, join));
        let class = format!("{:?} {} {}", graze.class, graze.r > 65, graze.within);
        *counts.entry(class).or_insert(0) += 1;
    }
    println!("{counts:?}");
    assert_eq!(counts.len(), 16, "{counts:?}");
}
