//! Drawings: the numbers, the iso-value and the version that a writer is given, whole
//! ones and damaged ones, and the buffers and places that they are written to.

use reference::generate::SplitMix64;
use reference::part::{Part, RECORD};
use reference::write::{numbers, NODE_NUMBERS};

/// The numbers of one node.
pub type Six = [i32; NODE_NUMBERS];

/// What a writer is given.
#[derive(Clone, Debug, Default, PartialEq, Eq)]
pub struct Drawing {
    pub numbers: Vec<i32>,
    pub iso: u32,
    pub version: u32,
}

impl Drawing {
    /// The nodes, with iso-value 1 and version 1.
    #[allow(dead_code)]
    pub fn of(nodes: &[Six]) -> Drawing {
        Drawing {
            numbers: nodes.concat(),
            iso: 1,
            version: 1,
        }
    }

    /// The nodes added at the end.
    #[allow(dead_code)]
    pub fn with(mut self, nodes: &[Six]) -> Drawing {
        self.numbers.extend(nodes.concat());
        self
    }

    /// The bytes of the records and the trailer.
    pub fn bytes(&self) -> usize {
        RECORD * (self.numbers.len() / NODE_NUMBERS + 1)
    }
}

impl From<&Part> for Drawing {
    fn from(part: &Part) -> Drawing {
        Drawing {
            numbers: numbers(&part.nodes),
            iso: part.iso.into(),
            version: part.degree.version().into(),
        }
    }
}

/// A point of radius 5 near the origin.
pub const POINT: Six = [1, 5, 1, -2, 3, 4];

/// An operator of the kind.
pub const fn operator(kind: i32) -> Six {
    [kind, 0, 0, 0, 0, 0]
}

/// Numbers at limits, beside them, and those that fewer than 32 bits do not
/// tell from others.
pub const NUMBERS: [i32; 33] = [
    0,
    1,
    2,
    3,
    5,
    6,
    -1,
    -2,
    255,
    256,
    257,
    -255,
    1024,
    1025,
    -1024,
    2047,
    2048,
    -2047,
    -2048,
    4096,
    4097,
    -4096,
    -4097,
    32_767,
    -32_768,
    65_535,
    65_536,
    65_537,
    -65_535,
    16_777_217,
    i32::MAX,
    i32::MIN,
    i32::MIN + 1,
];

/// A whole drawing with a fault that the question, 3, 5 to 11 or 16, finds. Faults
/// of 6 to 11 are nodes added at the end, where one value is held.
pub fn fault(drawing: Drawing, question: u32) -> Drawing {
    let mut faulty = match question {
        6 => drawing.with(&[operator(257)]),
        7 => drawing.with(&[POINT, [2, 0, 0, 0, 0, 65_536]]),
        8 => drawing.with(&[[1, 65_537, 0, 0, 0, 1]]),
        9 => drawing.with(&[operator(2)]),
        10 => drawing.with(&[POINT; 64]),
        11 => drawing.with(&[POINT]),
        _ => drawing,
    };
    match question {
        3 => faulty.version = 65_538,
        5 => faulty.iso = 65_537,
        16 => faulty.numbers.push(0),
        _ => {}
    }
    faulty
}

/// A damaged drawing; never the one given.
pub fn damaged(random: &mut SplitMix64, whole: &Drawing) -> Drawing {
    loop {
        let drawing = damage(random, whole.clone());
        if drawing != *whole {
            return drawing;
        }
    }
}

fn damage(random: &mut SplitMix64, mut drawing: Drawing) -> Drawing {
    match random.between(0, 16) {
        0..=3 => return fault(drawing, random.pick(&[3, 5, 6, 7, 8, 9, 10, 11, 16])),
        4..=10 => change_number(random, &mut drawing),
        11 => drawing.iso = another_iso(random),
        12 => drawing.version = another_version(random),
        13 => change_count(random, &mut drawing),
        _ => change_nodes(random, &mut drawing),
    }
    drawing
}

/// One number, or two, is another.
fn change_number(random: &mut SplitMix64, drawing: &mut Drawing) {
    for _ in 0..random.between(1, 2) {
        let last = drawing.numbers.len() as i64 - 1;
        let number = &mut drawing.numbers[random.between(0, last) as usize];
        *number = another(random, *number);
    }
}

/// Another number: one of the list, one whose lower bits are the same, of the
/// other sign, next to it, or any.
fn another(random: &mut SplitMix64, number: i32) -> i32 {
    let higher = random.pick(&[256, 65_536, 65_536, -65_536, 1 << 24, i32::MIN]);
    match random.between(0, 9) {
        0..=4 => random.pick(&NUMBERS),
        5..=6 => number.wrapping_add(higher),
        7 => number.wrapping_neg(),
        8 => number.wrapping_add(random.pick(&[-1, 1])),
        _ => random.next_u64() as i32,
    }
}

fn another_iso(random: &mut SplitMix64) -> u32 {
    let any = random.next_u64() as u32;
    random.pick(&[
        0,
        1,
        4096,
        4097,
        65_535,
        65_536,
        65_537,
        69_632,
        u32::MAX,
        any,
    ])
}

fn another_version(random: &mut SplitMix64) -> u32 {
    let any = random.next_u64() as u32;
    random.pick(&[0, 1, 2, 3, 257, 65_535, 65_537, 65_538, u32::MAX, any])
}

/// Numbers are lost, down to none, or added, up to one node too many or more.
fn change_count(random: &mut SplitMix64, drawing: &mut Drawing) {
    let numbers = &mut drawing.numbers;
    let few = random.between(1, 6) as usize;
    let count = match random.between(0, 4) {
        0 => numbers.len() - few,
        1 => numbers.len() + few,
        2 => random.between(0, numbers.len() as i64) as usize,
        3 => 0,
        _ => random.pick(&[3065, 3066, 3067, 3071, 3072, 3078, 4000, 6132]),
    };
    let again: Vec<i32> = numbers.iter().copied().cycle().take(count).collect();
    *numbers = again;
}

/// A node is lost, stands twice, or changes places with another.
fn change_nodes(random: &mut SplitMix64, drawing: &mut Drawing) {
    let mut nodes: Vec<Vec<i32>> = drawing
        .numbers
        .chunks(NODE_NUMBERS)
        .map(Vec::from)
        .collect();
    let last = nodes.len() as i64 - 1;
    let [at, other] = [(); 2].map(|()| random.between(0, last) as usize);
    match random.between(0, 2) {
        0 => drop(nodes.remove(at)),
        1 => nodes.insert(at, nodes[other].clone()),
        _ => nodes.swap(at, other),
    }
    drawing.numbers = nodes.concat();
}

/// A place for so many bytes and the buffer's length, mostly one into which they
/// fit. Some end at byte 65,536, or one later, and of some the sum of place and
/// bytes is 2^64 or more.
pub fn placed(random: &mut SplitMix64, bytes: usize) -> (usize, usize) {
    let to_most = 65_536 - bytes.min(65_536);
    let place = match random.between(0, 47) {
        0..=17 => 0,
        18..=34 => random.between(1, 300) as usize,
        35 => random.between(0, 66_000) as usize,
        36..=38 => to_most,
        39 => to_most + 1,
        _ => far(random, bytes),
    };
    let end = place.wrapping_add(bytes).min(66_000);
    let room = match random.between(0, 9) {
        0..=3 => end,
        4..=6 => end + random.between(1, 300) as usize,
        7 => end.max(random.pick(&[end, end + 1, end + 12, end + 48, 65_536, 65_537])),
        8 => end.saturating_sub(random.pick(&[1, 1, 12, bytes])),
        _ => random.pick(&[0, bytes, bytes - 1]),
    };
    (place, room)
}

/// A place beyond every buffer.
fn far(random: &mut SplitMix64, bytes: usize) -> usize {
    let any = random.next_u64() as usize;
    let wraps = usize::MAX - random.between(0, bytes as i64 + 1) as usize;
    random.pick(&[
        65_536,
        65_537,
        1 << 32,
        1 << 63,
        usize::MAX,
        wraps,
        wraps,
        any,
    ])
}
