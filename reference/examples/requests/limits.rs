//! Requests on both sides of each limit of the questions, all else accepted: of
//! each pair the first is accepted, the second refused.

use crate::drawn::lent;
use crate::request::{casting, need, six, Request, CALLS};
use crate::request::{BOUNDS, COLUMN, FULL_CAST, MARCH, RESTORE, VIEW, WRITE};
use crate::write_limits::writes;
use reference::generate::SplitMix64;
use reference::part::{operator_record, point_record, FileBuilder};
use reference::part::{FILE_MARK, OPERATORS, RECORD};

type Files = Vec<[Vec<u8>; 2]>;

/// A slanted ray through the points below.
pub const A: [i32; 3] = [-1024, 32, -16];
pub const B: [i32; 3] = [1024, -96, 144];
/// The greatest size of a coordinate.
const REACH: i32 = 2047;

/// Every request of the list, the two of a pair one after the other.
pub fn at_limits(random: &mut SplitMix64) -> Vec<Request> {
    let requests: Vec<Request> = (0..CALLS as u8)
        .flat_map(of_call)
        .map(|request| lent(random, request.answered()))
        .collect();
    for pair in requests.chunks(2) {
        assert!(pair[0].is_accepted() && !pair[1].is_accepted());
    }
    requests
}

/// A call's requests at the limits that it asks about.
fn of_call(call: u8) -> Vec<Request> {
    match call {
        WRITE => writes(),
        RESTORE => restores(),
        _ => of_file(call),
    }
}

/// Those of a call that is handed a file.
fn of_file(call: u8) -> Vec<Request> {
    let whole = Request {
        call,
        file: whole().build(),
        ray: of_steps(call, A, B),
        budget: 2047,
        room: need(call),
        ..Request::default()
    };
    let on = |file| Request {
        file,
        ..whole.clone()
    };
    let along = |ray| Request {
        ray,
        ..whole.clone()
    };
    let within = |room| Request {
        room,
        ..whole.clone()
    };
    let files = files().into_iter().flatten().map(on);
    let rays = rays(call).into_iter().flatten().map(along);
    let rooms = rooms(call).into_iter().flatten().map(within);
    files.chain(rays).chain(rooms).collect()
}

/// Two points and their sum.
pub fn whole() -> FileBuilder {
    FileBuilder::new(3).raw(wide()).raw(narrow()).sum()
}

fn wide() -> [u8; RECORD] {
    point_record(512, [0; 3], 4)
}

fn narrow() -> [u8; RECORD] {
    point_record(300, [100, -50, 20], 7)
}

/// The whole file beside another.
fn and_whole(builder: FileBuilder) -> [Vec<u8>; 2] {
    [whole().build(), builder.build()]
}

/// Files at the limits of questions 1 to 11.
fn files() -> Files {
    [
        lengths(),
        trailers(),
        distances(),
        kinds(),
        zero_bytes(),
        points(),
        held(),
    ]
    .concat()
}

/// Question 1.
fn lengths() -> Files {
    let one = FileBuilder::new(3).raw(wide()).build();
    let short = one[1..].to_vec();
    let most = 65_536 - whole().build().len();
    let long = |leading| whole().leading(&vec![1; leading]).build();
    vec![[one, short], [long(most), long(most + 1)]]
}

/// Questions 2, 3 and 5.
fn trailers() -> Files {
    let mut files = Vec::new();
    for i in 0..FILE_MARK.len() {
        let mut mark = FILE_MARK;
        mark[i] ^= 1;
        files.push(and_whole(whole().mark(mark)));
    }
    for pair in [[1, 0], [2, 3], [1, 257], [2, 258]] {
        files.push(pair.map(|version| whole().version(version).build()));
    }
    for pair in [[1, 0], [4096, 4097]] {
        files.push(pair.map(|iso| whole().iso(iso).build()));
    }
    files
}

/// Question 4. Distances of 25 and 35 leave a whole record before stray bytes.
fn distances() -> Files {
    let one = FileBuilder::new(3).raw(wide());
    let joined = |builder: FileBuilder, _| builder.raw(narrow()).greater();
    let most = (0..255).fold(one.clone(), joined);
    let more = (0..255).fold(one.clone().raw(wide()), joined);
    vec![
        [one.build(), one.clone().distance(12).build()],
        [most.build(), more.build()],
        [one.build(), with_stray_bytes(one.clone().distance(25), 1)],
        [one.build(), with_stray_bytes(one.distance(35), 11)],
        [whole().build(), whole().build()[RECORD..].to_vec()],
    ]
}

/// The file with so many zeros between its records and its trailer.
fn with_stray_bytes(builder: FileBuilder, count: usize) -> Vec<u8> {
    let mut file = builder.build();
    let at = file.len() - RECORD;
    file.splice(at..at, vec![0; count]);
    file
}

/// Question 6: a point's kind, and an operator's.
fn kinds() -> Files {
    let of_point = |kind| {
        let mut record = wide();
        record[0] = kind;
        FileBuilder::new(3).raw(record).build()
    };
    let of_operator = |kind| {
        let two = FileBuilder::new(3).raw(wide()).raw(narrow());
        two.raw(operator_record(kind)).build()
    };
    vec![[1, 0].map(of_point), [5, 6].map(of_operator)]
}

/// Question 7: a point's byte 1, and bytes 1 to 11 of each operator.
fn zero_bytes() -> Files {
    let of_point = |byte| {
        let mut record = wide();
        record[1] = byte;
        FileBuilder::new(3).raw(record).build()
    };
    let mut files = vec![[0, 1].map(of_point)];
    for kind in OPERATORS {
        for at in 1..RECORD {
            files.push([0, 1].map(|byte| {
                let mut record = operator_record(kind as u8);
                record[at] = byte;
                let two = FileBuilder::new(3).raw(wide()).raw(narrow());
                two.raw(record).build()
            }));
        }
    }
    files
}

/// Question 8: one number of a third point.
fn points() -> Files {
    let file = |r, centre, w| whole().point(r, centre, w).greater().build();
    let mut files = vec![
        [1, 0].map(|r| file(r, [9; 3], 5)),
        [1024, 1025].map(|r| file(r, [9; 3], 5)),
        [4096, 4097].map(|w| file(40, [9; 3], w)),
        [-4096, -4097].map(|w| file(40, [9; 3], w)),
    ];
    for i in 0..3 {
        for pair in [[2047, 2048], [-2047, -2048]] {
            files.push(pair.map(|c| {
                let mut centre = [9; 3];
                centre[i] = c;
                file(40, centre, 5)
            }));
        }
    }
    files
}

/// Questions 9 to 11: each operator with two values held and with one, a point
/// with 63 and with 64, one value at the end and two.
fn held() -> Files {
    let one = FileBuilder::new(3).raw(wide());
    let deep = |points| {
        let held = (1..points).fold(one.clone(), |b, _| b.raw(narrow()));
        (1..points).fold(held, |b, _| b.greater()).build()
    };
    let two = one.clone().raw(narrow());
    let joined = |kind| {
        let too_early = one.clone().operator(kind).raw(narrow());
        [two.clone().operator(kind), too_early].map(|builder| builder.build())
    };
    let held = [[deep(64), deep(65)], [one.build(), two.build()]];
    OPERATORS.map(joined).into_iter().chain(held).collect()
}

/// The ray as the call is handed it; a place is its A.
pub fn of_steps(call: u8, a: [i32; 3], b: [i32; 3]) -> [u32; 6] {
    match casting(call) {
        Some(VIEW) => six(a, b, |c| (c as f32 / 64.0).to_bits()),
        Some(_) => six(a, b, |c| c as u32),
        None => six(a, [0; 3], |c| c as u32),
    }
}

/// Rays and places at the limits of questions 12 and 15, where the call asks
/// them.
fn rays(call: u8) -> Vec<[[u32; 6]; 2]> {
    match (casting(call), call) {
        (Some(VIEW), _) => [coordinates(call, 6), floats()].concat(),
        (Some(_), _) => coordinates(call, 6),
        (None, BOUNDS) => coordinates(call, 3),
        (None, _) => Vec::new(),
    }
}

/// The last step within reach and the next, of both signs, in each place.
fn coordinates(call: u8, places: usize) -> Vec<[[u32; 6]; 2]> {
    let mut pairs = Vec::new();
    for i in 0..places {
        for sign in [1, -1] {
            pairs.push([REACH, REACH + 1].map(|c| {
                let mut ends = [A, B];
                ends[i / 3][i % 3] = sign * c;
                of_steps(call, ends[0], ends[1])
            }));
        }
    }
    pairs
}

/// A step and the floats next to it, infinities and no numbers, in each place.
fn floats() -> Vec<[[u32; 6]; 2]> {
    let right = of_steps(VIEW, A, B);
    let mut pairs = Vec::new();
    for i in 0..6 {
        let step = f32::from_bits(right[i]);
        let no_steps = [
            step.next_up(),
            step.next_down(),
            f32::INFINITY,
            f32::NEG_INFINITY,
            f32::NAN,
        ];
        for float in no_steps {
            let mut wrong = right;
            wrong[i] = float.to_bits();
            pairs.push([right, wrong]);
        }
    }
    pairs
}

/// Question 14.
fn rooms(call: u8) -> Vec<[usize; 2]> {
    match casting(call) {
        Some(FULL_CAST | MARCH | COLUMN) => vec![[need(call), need(call) - 1]],
        _ => Vec::new(),
    }
}

/// Question 18: 12 bytes, and none, one less, one more and twice as many.
fn restores() -> Vec<Request> {
    let contents = [[0; 24], [255; 24], std::array::from_fn(|i| i as u8 + 1)];
    let of_lengths = |bytes: [u8; 24]| {
        [12, 0, 12, 11, 12, 13, 12, 24].map(|length| Request {
            call: RESTORE,
            saved: bytes[..length].to_vec(),
            ..Request::default()
        })
    };
    contents.into_iter().flat_map(of_lengths).collect()
}
