//! Repeatable pseudo-random trees, rays, damaged files, totals and saved records
//! for tests.

use crate::field::Ray;
use crate::part::{operator_record, point_record, Degree, FileBuilder, Kind, Node, Part};
use crate::part::{DEGREES, FILE_MARK, OPERATORS, REACH};
use crate::totals::{Totals, CEILING};

/// The SplitMix64 generator.
#[derive(Clone, Debug)]
pub struct SplitMix64(u64);

impl SplitMix64 {
    /// A generator with a fixed seed.
    pub fn new(seed: u64) -> SplitMix64 {
        SplitMix64(seed)
    }

    /// The next 64 bits.
    pub fn next_u64(&mut self) -> u64 {
        self.0 = self.0.wrapping_add(0x9e37_79b9_7f4a_7c15);
        let mut z = self.0;
        z = (z ^ (z >> 30)).wrapping_mul(0xbf58_476d_1ce4_e5b9);
        z = (z ^ (z >> 27)).wrapping_mul(0x94d0_49bb_1331_11eb);
        z ^ (z >> 31)
    }

    /// A number from `low` to `high`, both included.
    pub fn between(&mut self, low: i64, high: i64) -> i64 {
        let width = (i128::from(high) - i128::from(low) + 1).max(1);
        let step = i128::from(self.next_u64()) % width;
        (i128::from(low) + step) as i64
    }

    /// True once in `n` on average.
    pub fn one_in(&mut self, n: i64) -> bool {
        self.between(1, n) == 1
    }

    /// One of the items; `items` is not empty.
    pub fn pick<T: Copy>(&mut self, items: &[T]) -> T {
        items[self.between(0, items.len() as i64 - 1) as usize]
    }
}

/// Ranges from which a part is drawn, both ends included.
#[derive(Clone, Copy, Debug)]
pub struct Shape {
    /// Number of points.
    pub points: (i64, i64),
    /// Sizes of centre coordinates.
    pub reach: i64,
    /// Radii.
    pub radius: (i64, i64),
    /// Weights.
    pub weight: (i64, i64),
    /// Iso-values.
    pub iso: (i64, i64),
}

/// A few points that all overlap, so that what a lesser and a cut leave has a
/// surface.
pub const OVERLAPPING: Shape = Shape {
    points: (2, 6),
    reach: 150,
    radius: (300, 1024),
    weight: (5, 90),
    iso: (1, 12),
};

/// How a part's tree is joined.
#[derive(Clone, Copy, Debug, PartialEq, Eq)]
pub enum Form {
    /// Each point joined to all before it.
    LeftDeep,
    /// Points held, up to 64 of them, before the first join.
    RightDeep,
    /// Halves of equal size as far as possible.
    Balanced,
    /// Joined at random.
    Mixed,
}

/// All forms.
pub const FORMS: [Form; 4] = [Form::LeftDeep, Form::RightDeep, Form::Balanced, Form::Mixed];

/// A random part of the given shape, joined at random.
pub fn part(random: &mut SplitMix64, shape: &Shape) -> Part {
    part_of_form(random, shape, Form::Mixed)
}

/// A random part of the given shape and form, with as many lessers and cuts as
/// other operators, or with few: of many there is mostly nothing left.
pub fn part_of_form(random: &mut SplitMix64, shape: &Shape, form: Form) -> Part {
    let points = random.between(shape.points.0, shape.points.1);
    let once_in = random.pick(&[2, 8, 64]);
    let (mut added, mut held) = (0, 0);
    let mut nodes = Vec::new();
    while added < points || held > 1 {
        let forced = added == points || held == 64;
        if held >= 2 && (forced || joins(random, form, added, held)) {
            nodes.push(random_operator(random, once_in));
            held -= 1;
        } else {
            nodes.push(random_point(random, shape));
            added += 1;
            held += 1;
        }
    }
    Part {
        iso: random.between(shape.iso.0, shape.iso.1) as u16,
        degree: degree(random),
        nodes,
    }
}

/// Either degree, from a stream of its own: what is drawn next stays the same.
fn degree(random: &SplitMix64) -> Degree {
    SplitMix64::new(!random.0).pick(&DEGREES)
}

/// Whether two or more held values are joined before the next point.
fn joins(random: &mut SplitMix64, form: Form, added: i64, held: u32) -> bool {
    match form {
        Form::LeftDeep => true,
        Form::RightDeep => false,
        Form::Balanced => held > added.count_ones(),
        Form::Mixed => random.one_in(2),
    }
}

fn node(kind: Kind, r: u16, [x, y, z]: [i16; 3], w: i16) -> Node {
    Node {
        kind,
        r,
        x,
        y,
        z,
        w,
    }
}

fn operator(kind: Kind) -> Node {
    node(kind, 0, [0; 3], 0)
}

fn point(r: u16, centre: [i16; 3], w: i16) -> Node {
    node(Kind::Point, r, centre, w)
}

/// A lesser or a cut once in `once_in` on average, else a sum or a greater.
fn random_operator(random: &mut SplitMix64, once_in: i64) -> Node {
    operator(match random.one_in(once_in) {
        true => random.pick(&[Kind::Lesser, Kind::Cut]),
        false => random.pick(&[Kind::Sum, Kind::Greater]),
    })
}

fn random_point(random: &mut SplitMix64, shape: &Shape) -> Node {
    let mut coordinate = || random.between(-shape.reach, shape.reach) as i16;
    let centre = [coordinate(), coordinate(), coordinate()];
    let r = random.between(shape.radius.0, shape.radius.1) as u16;
    let w = random.between(shape.weight.0, shape.weight.1) as i16;
    point(r, centre, w)
}

/// A part that nearly cancels or a bored one.
pub fn cancelling_or_bored(random: &mut SplitMix64) -> Part {
    random.pick(&[cancelling, bored])(random)
}

/// Two points that nearly cancel, so that many ticks stay undecided, and the
/// greater of them and a third, or the third cut out of them.
pub fn cancelling(random: &mut SplitMix64) -> Part {
    let w = random.between(500, 4000) as i16;
    let r = random.between(300, 1000) as u16;
    let mut near = || random.between(-3, 3) as i16;
    let second = [near(), near(), near()];
    let (more, wider) = (near() * 5, near());
    Part {
        iso: random.between(1, 30) as u16,
        degree: degree(random),
        nodes: vec![
            point(r, [0; 3], w),
            point(r.saturating_add_signed(wider), second, more - w),
            operator(Kind::Sum),
            point(200, [100, 0, 0], 20),
            operator(random.pick(&[Kind::Greater, Kind::Cut])),
        ],
    }
}

/// A block with a bore in which a plug is left standing, the lesser of it and a
/// ball, an arm added, and a notch cut into all. The bore without its plug is a
/// cut too.
pub fn bored(random: &mut SplitMix64) -> Part {
    let (iso, degree) = (random.between(1, 9) as u16, degree(random));
    let mut about = |r: i64, reach: i64, w: i64| {
        let centre = [0; 3].map(|_: i16| random.between(-reach, reach) as i16);
        let r = random.between(r / 2, r) as u16;
        point(r, centre, random.between(w / 4, w) as i16)
    };
    Part {
        iso,
        degree,
        nodes: vec![
            about(1000, 50, 60),
            about(500, 100, 200),
            about(150, 90, 300),
            operator(Kind::Cut),
            operator(Kind::Cut),
            about(900, 200, 90),
            operator(Kind::Lesser),
            about(400, 400, 30),
            operator(Kind::Sum),
            about(300, 300, 50),
            operator(Kind::Cut),
        ],
    }
}

/// Points of degree 4 on a grid, 360 steps apart and wide enough to meet.
pub fn lattice(sizes: [i16; 3]) -> Part {
    grid(sizes, 360, 300)
}

/// A strut of degree 4 along y, 2 steps from point to point and less than 3 thick, and a
/// ray along x for each step of it. The rays' ticks are just under 4 steps
/// long, and one begins in the middle of the strut.
pub fn strut(points: i16) -> (Part, Vec<Ray>) {
    let half = i32::from(points) - 1;
    let ray = |y| Ray {
        a: [-REACH, y, 0],
        b: [REACH, y, 0],
    };
    let rays = (-half..=half).map(ray);
    (grid([1, points, 1], 2, 2), rays.collect())
}

/// Points of degree 4 and one radius on a grid of the sizes given, an even number of
/// steps apart about the origin: summed layer by layer, and the greater of the
/// layers taken.
fn grid([width, depth, height]: [i16; 3], apart: i16, r: u16) -> Part {
    let at = |i: i16, size: i16| apart * i - apart / 2 * (size - 1);
    let layer = width * depth;
    let mut nodes = Vec::new();
    for n in 0..layer * height {
        let centre = [
            at(n % width, width),
            at(n % layer / width, depth),
            at(n / layer, height),
        ];
        nodes.push(point(r, centre, 4));
        if n % layer > 0 {
            nodes.push(operator(Kind::Sum));
        }
        if n % layer == layer - 1 && n >= layer {
            nodes.push(operator(Kind::Greater));
        }
    }
    Part {
        iso: 1,
        degree: Degree::Four,
        nodes,
    }
}

/// How a ray lies to the part.
#[derive(Clone, Copy, Debug, PartialEq, Eq)]
pub enum Style {
    /// Parallel to an axis, within a point's radius.
    Axis,
    /// Through a point's centre.
    Centre,
    /// Parallel to an axis, close to a point's surface or rim.
    Grazing,
    /// One step long, near a point's surface.
    OneStep,
    /// From one side of the space to the other.
    Long,
    /// Between two random places.
    Any,
}

/// All styles.
pub const STYLES: [Style; 6] = [
    Style::Axis,
    Style::Centre,
    Style::Grazing,
    Style::OneStep,
    Style::Long,
    Style::Any,
];

/// A random ray of the given style; its ends are in range, and they differ.
pub fn ray(random: &mut SplitMix64, part: &Part, style: Style) -> Ray {
    let target = random.pick(&points(part));
    let (a, b) = match style {
        Style::Axis => axis(random, &target),
        Style::Centre => through_centre(random, &target),
        Style::Grazing => grazing(random, &target, part),
        Style::OneStep => one_step(random, &target, part),
        Style::Long => long(random),
        Style::Any => (anywhere(random), anywhere(random)),
    };
    differing(clamped(a), clamped(b))
}

fn points(part: &Part) -> Vec<Node> {
    let nodes = part.nodes.iter().copied();
    nodes.filter(|node| node.kind == Kind::Point).collect()
}

/// A ray of no length: its place is about a point, in its ball or around it, close
/// to its rim or close to where the point alone is as large as iso.
pub fn no_length(random: &mut SplitMix64, part: &Part) -> Ray {
    let target = random.pick(&points(part));
    let r = i64::from(target.r);
    let size = random.pick(&[r / 3, r, r, surface(&target, part)]);
    let mut from_centre = [random.between(-size, size), 0, 0];
    let left = size * size - from_centre[0] * from_centre[0];
    from_centre[1] = random.between(-left.isqrt(), left.isqrt());
    let left = left - from_centre[1] * from_centre[1];
    from_centre[2] = left.isqrt() + random.between(-1, 1);
    from_centre.rotate_left(random.between(0, 2) as usize);
    let sign = random.pick(&[-1, 1]);
    let at = centre(&target);
    let at = clamped([0, 1, 2].map(|i| at[i] + sign * from_centre[i]));
    Ray { a: at, b: at }
}

fn centre(point: &Node) -> [i64; 3] {
    [point.x, point.y, point.z].map(i64::from)
}

fn clamped(at: [i64; 3]) -> [i32; 3] {
    let reach = i64::from(REACH);
    at.map(|c| c.clamp(-reach, reach) as i32)
}

fn differing(a: [i32; 3], mut b: [i32; 3]) -> Ray {
    if a == b {
        b[0] = if a[0] < REACH { a[0] + 1 } else { a[0] - 1 };
    }
    Ray { a, b }
}

fn anywhere(random: &mut SplitMix64) -> [i64; 3] {
    let reach = i64::from(REACH);
    [0; 3].map(|_: i64| random.between(-reach, reach))
}

/// Ends on both sides of the target along one axis, moved by `offset` along
/// the next one.
fn parallel(random: &mut SplitMix64, target: &Node, offset: i64) -> ([i64; 3], [i64; 3]) {
    let along = random.between(0, 2) as usize;
    let across = (along + 1) % 3;
    let r = i64::from(target.r);
    let mut a = centre(target);
    a[across] += offset;
    let mut b = a;
    a[along] -= random.between(0, 3 * r);
    b[along] += random.between(0, 3 * r);
    if random.one_in(2) {
        (a, b)
    } else {
        (b, a)
    }
}

fn axis(random: &mut SplitMix64, target: &Node) -> ([i64; 3], [i64; 3]) {
    let r = i64::from(target.r);
    let offset = random.between(-r, r);
    parallel(random, target, offset)
}

fn grazing(random: &mut SplitMix64, target: &Node, part: &Part) -> ([i64; 3], [i64; 3]) {
    let edge = random.pick(&[i64::from(target.r), surface(target, part)]);
    let offset = edge + random.between(-1, 1);
    parallel(random, target, offset)
}

/// The greatest whole distance at which a point of the part alone is at least iso.
fn surface(point: &Node, part: &Part) -> i64 {
    let r = i128::from(point.r);
    let power = |squared: i128| squared.pow(part.degree.power());
    let solid = |d: &i64| {
        let depth = r * r - i128::from(*d) * i128::from(*d);
        i128::from(point.w) * power(depth) >= i128::from(part.iso) * power(r * r)
    };
    (0..i64::from(point.r)).rev().find(solid).unwrap_or(0)
}

fn through_centre(random: &mut SplitMix64, target: &Node) -> ([i64; 3], [i64; 3]) {
    let r = i64::from(target.r);
    let middle = centre(target);
    let room = middle.iter().map(|c| i64::from(REACH) - c.abs()).min();
    let most = (2 * r).min(room.unwrap_or(0));
    let way = [0; 3].map(|_: i64| random.between(-most, most));
    let a = [0, 1, 2].map(|i| middle[i] - way[i]);
    let b = [0, 1, 2].map(|i| middle[i] + way[i]);
    (a, b)
}

fn one_step(random: &mut SplitMix64, target: &Node, part: &Part) -> ([i64; 3], [i64; 3]) {
    let along = random.between(0, 2) as usize;
    let mut a = centre(target);
    a[along] += surface(target, part) + random.between(-1, 1);
    let mut b = a;
    b[random.between(0, 2) as usize] += random.pick(&[-1, 1]);
    (a, b)
}

fn long(random: &mut SplitMix64) -> ([i64; 3], [i64; 3]) {
    let reach = i64::from(REACH);
    let mut a = anywhere(random);
    let mut b = anywhere(random);
    let along = random.between(0, 2) as usize;
    a[along] = -reach;
    b[along] = reach;
    (a, b)
}

/// Bytes of any content, half of the time under a trailer.
pub fn random_bytes(random: &mut SplitMix64) -> Vec<u8> {
    let length = random.pick(&[0, 1, 11, 12, 23, 24, 36, 60, 300]);
    let mut bytes: Vec<u8> = (0..length).map(|_| random.next_u64() as u8).collect();
    if random.one_in(2) {
        let version = random.pick(&[0, 1, 1, 2]);
        bytes.extend([1, 0, version, 0, random.pick(&[24, 36, 48, 49]), 0, 0, 0]);
        bytes.extend(FILE_MARK);
    }
    bytes
}

/// Records drawn one by one, each right more often than not, under a trailer
/// that is right more often than not.
pub fn random_records(random: &mut SplitMix64) -> Vec<u8> {
    let mut builder = FileBuilder::new(random.pick(&[0, 1, 2, 4096, 4097]));
    builder = builder.version(degree(random).version());
    for _ in 0..random.pick(&[1, 2, 3, 3, 5, 8, 70]) {
        let centre = [0; 3].map(|_: i16| random.between(-2060, 2060) as i16);
        let mut record = match random.between(0, 9) {
            0 => operator_record(random.pick(&[0, 6, 255])),
            1..=4 => operator_record(random.pick(&OPERATORS) as u8),
            _ => point_record(random.between(0, 1030) as u16, centre, 40),
        };
        if random.one_in(20) {
            record[random.between(0, 11) as usize] = random.next_u64() as u8;
        }
        builder = builder.raw(record);
    }
    builder.build()
}

/// A file with a fault that the question, 1 to 11, finds. Faults of 6 to 11
/// are records added at the end, which find at most 20 values held.
pub fn fault(builder: FileBuilder, question: u32) -> FileBuilder {
    let mut nonzero = point_record(5, [0; 3], 1);
    nonzero[1] = 1;
    match question {
        1 => builder.leading(&[0; 65_536]),
        2 => builder.mark([0; 4]),
        3 => builder.version(3),
        4 => builder.distance(25),
        5 => builder.iso(0),
        6 => builder.raw(operator_record(6)),
        7 => builder.raw(nonzero),
        8 => builder.point(0, [0; 3], 1),
        9 => (0..20).fold(builder, |b, _| b.sum()),
        10 => (0..65).fold(builder, |b, _| b.point(1, [0; 3], 1)),
        _ => builder.point(1, [0; 3], 1),
    }
}

/// One or two changes: a byte, a bit, a cut, a doubled piece.
pub fn mutate(random: &mut SplitMix64, file: &mut Vec<u8>) {
    for _ in 0..random.between(1, 2) {
        let last = file.len() as i64 - 1;
        if last < 0 {
            return;
        }
        let at = random.between(0, last) as usize;
        match random.between(0, 12) {
            0 => file[at] = random.next_u64() as u8,
            1 => file[at] ^= 1 << random.between(0, 7),
            2 => file.truncate(at),
            3 => drop(file.remove(at)),
            4 => file.insert(at, random.next_u64() as u8),
            5..=10 => file[at] = file[at].wrapping_add(random.between(0, 1) as u8),
            _ => {
                let copy: Vec<u8> = file[at..].iter().take(12).copied().collect();
                file.splice(at..at, copy);
            }
        }
    }
}

/// Totals, each near 0, around 2^32, near the ceiling or any number.
pub fn totals(random: &mut SplitMix64) -> Totals {
    Totals::from([(); 3].map(|()| {
        let near = random.between(0, 40) as u64;
        let any = random.next_u64();
        random.pick(&[near, (1 << 32) - 20 + near, CEILING - near, any])
    }))
}

/// A saved record, its numbers at a limit of 32 bits or any; of another length
/// once in two.
pub fn saved_record(random: &mut SplitMix64) -> Vec<u8> {
    let numbers = [(); 3].map(|()| {
        let any = random.next_u64() as u32;
        random.pick(&[0, 1, u32::MAX - 1, u32::MAX, any, any, any])
    });
    let mut bytes: Vec<u8> = numbers.into_iter().flat_map(u32::to_le_bytes).collect();
    let any = random.between(0, 24) as usize;
    let length = random.pick(&[12, 12, 12, 12, 0, 11, 13, any]);
    bytes.resize(length, random.next_u64() as u8);
    bytes
}
