//! Writes on both sides of each limit of the writer's questions, all else
//! accepted where that can be: of each pair the first is accepted, the second
//! refused.

use crate::drawings::{operator, Drawing, Six, POINT};
use crate::request::{Request, WRITE};

type Pairs = Vec<[Drawing; 2]>;

/// Kinds of operators.
const OPERATORS: [i32; 4] = [2, 3, 4, 5];

/// Every write of the list, the two of a pair one after the other.
pub fn writes() -> Vec<Request> {
    let all = [counts(), versions(), isos(), kinds()];
    let all = [all.concat(), zeros(), points(), held()].concat();
    let room = |drawing: &Drawing| drawing.bytes() + 20;
    let drawings = all.into_iter().flatten();
    let at_start = drawings.map(|drawing| write(room(&drawing), 0, drawing));
    at_start.chain(places().into_iter().flatten()).collect()
}

fn write(room: usize, place: usize, drawing: Drawing) -> Request {
    Request {
        call: WRITE,
        drawing,
        room,
        place,
        ..Request::default()
    }
}

/// Two points and the operator.
fn joined(six: Six) -> Drawing {
    Drawing::of(&[POINT, POINT, six])
}

/// Question 16.
fn counts() -> Pairs {
    let one = Drawing::of(&[POINT]);
    let most = one.clone().with(&[POINT, operator(2)].repeat(255));
    let first = |count: usize| Drawing {
        numbers: joined(operator(2)).numbers[..count].to_vec(),
        iso: 1,
        version: 1,
    };
    vec![
        [one.clone(), first(0)],
        [most.clone(), most.with(&[POINT])],
        [one.clone(), first(7)],
        [one, first(11)],
    ]
}

/// Question 3.
fn versions() -> Pairs {
    let with_version = |version| Drawing {
        version,
        ..joined(operator(4))
    };
    let pairs = [
        [1, 0],
        [2, 3],
        [1, 257],
        [1, 65_537],
        [2, 65_538],
        [1, u32::MAX],
    ];
    pairs.map(|pair| pair.map(with_version)).to_vec()
}

/// Question 5.
fn isos() -> Pairs {
    let with_iso = |iso| Drawing {
        iso,
        ..joined(operator(3))
    };
    let pairs = [[1, 0], [4096, 4097], [1, 65_537]];
    pairs.map(|pair| pair.map(with_iso)).to_vec()
}

/// Question 6: a point's kind, and an operator's.
fn kinds() -> Pairs {
    let of_point = |kind| Drawing::of(&[with(POINT, 0, kind)]);
    vec![
        [1, 0].map(of_point),
        [1, 257].map(of_point),
        [5, 6].map(|kind| joined(operator(kind))),
    ]
}

/// The six numbers, one of them another.
fn with(mut six: Six, at: usize, number: i32) -> Six {
    six[at] = number;
    six
}

/// Question 7: the five other numbers of each operator.
fn zeros() -> Pairs {
    let places = OPERATORS
        .iter()
        .flat_map(|&kind| (1..6).map(move |at| (kind, at)));
    let pairs = places.flat_map(|(kind, at)| {
        [1, -1, 65_536]
            .map(|wrong| [0, wrong].map(|number| joined(with(operator(kind), at, number))))
    });
    pairs.collect()
}

/// Question 8: one number of a third point.
fn points() -> Pairs {
    let reach = [[2047, 2048], [-2047, -2048], [0, 65_536]];
    let numbers = [
        (1, [[1, 0], [1024, 1025], [1, 65_537]]),
        (2, reach),
        (3, reach),
        (4, reach),
        (5, [[4096, 4097], [-4096, -4097], [0, 65_536]]),
    ];
    let of_number = |(at, pairs): (usize, [[i32; 2]; 3])| {
        let third = move |number| {
            let point = with(POINT, at, number);
            joined(operator(4)).with(&[point, operator(5)])
        };
        pairs.map(|pair| pair.map(third))
    };
    numbers.into_iter().flat_map(of_number).collect()
}

/// Questions 9 to 11: each operator with two values held and with one, a point
/// with 63 and with 64, one value at the end and two.
fn held() -> Pairs {
    let deep =
        |points: usize| Drawing::of(&vec![POINT; points]).with(&vec![operator(3); points - 1]);
    let early = |kind| Drawing::of(&[POINT, operator(kind), POINT]);
    let joined = OPERATORS.map(|kind| [joined(operator(kind)), early(kind)]);
    let ends = [[1, 2].map(|points| Drawing::of(&vec![POINT; points]))];
    let deep = [[64, 65].map(deep)];
    joined.into_iter().chain(deep).chain(ends).collect()
}

/// Question 17, of 48 bytes: the buffer's end, byte 65,536, and places for which
/// the sum passes 64 bits and is small again.
fn places() -> Vec<[Request; 2]> {
    let at = |room, place| write(room, place, joined(operator(2)));
    let most = 65_536 - 48;
    vec![
        [at(48, 0), at(47, 0)],
        [at(148, 100), at(148, 101)],
        [at(65_536, most), at(65_535, most)],
        [at(65_536, most), at(65_537, most + 1)],
        [at(70_000, most), at(70_000, most + 1)],
        [at(48, 0), at(48, usize::MAX)],
        [at(100, 52), at(100, usize::MAX - 47)],
        [at(100, 52), at(100, usize::MAX - 20)],
    ]
}
