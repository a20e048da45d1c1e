//! A request's numbers, looked at one by one: which are right and at a limit,
//! and which are wrong.

use crate::limited::What;
use crate::request::{casting, Request, BOUNDS, COLUMN, FULL_CAST, MARCH, RESTORE, VIEW, WRITE};
use reference::part::{FILE_MARK, RECORD};
use reference::write::NODE_NUMBERS;

/// A number, which of its kind, and its value.
pub type Seen = (What, usize, i64);

/// What was seen of a request.
#[derive(Default)]
pub struct Look {
    /// The right ones at a limit, each once.
    pub right: Vec<Seen>,
    pub wrong: Vec<Seen>,
}

impl Look {
    /// Looks at what a write is given, at a saved record, or at the file and what
    /// the call is asked of it.
    pub fn at(request: &Request) -> Look {
        let mut look = Look::default();
        match request.call {
            WRITE => look.write(request),
            RESTORE => look.see(What::SavedLength, 0, request.saved.len() as i64),
            _ => look.asked_of_file(request),
        }
        look
    }

    /// The file, and the ray and the room as the call is asked.
    fn asked_of_file(&mut self, request: &Request) {
        self.file(&request.file);
        match (casting(request.call), request.call) {
            (Some(VIEW), _) => self.floats(request.ray.map(f32::from_bits)),
            (Some(_), _) => self.ray(request.ray.map(|bits| i64::from(bits as i32))),
            (None, BOUNDS) => self.place(&request.ray[..3]),
            (None, _) => {}
        }
        let room = request.room as i64;
        match casting(request.call) {
            Some(FULL_CAST | MARCH) => self.see(What::MarksRoom, 0, room),
            Some(COLUMN) => self.see(What::ColumnRoom, 0, room),
            _ => {}
        }
    }

    fn see(&mut self, what: What, member: usize, value: i64) {
        let limited = what.limited();
        let seen = (what, member, value);
        if !limited.range.contains(&value) {
            self.wrong.push(seen);
        } else if limited.limits.iter().any(|l| l[0] == value) && !self.right.contains(&seen) {
            self.right.push(seen);
        }
    }

    /// The length, the trailer, and the records where they can be found.
    fn file(&mut self, file: &[u8]) {
        self.see(What::Length, 0, file.len() as i64);
        if !self.wrong.is_empty() {
            return;
        }
        let trailer = &file[file.len() - RECORD..];
        let distance = i64::from(two(trailer, 4)) + 65_536 * i64::from(two(trailer, 6));
        for (i, right) in FILE_MARK.into_iter().enumerate() {
            self.see(What::Mark, i, i64::from(trailer[8 + i] ^ right));
        }
        self.see(What::Version, 0, i64::from(two(trailer, 2)));
        self.see(What::Iso, 0, i64::from(two(trailer, 0)));
        let others = self.wrong.len();
        self.see(What::Distance, 0, distance);
        self.see(What::Remainder, 0, distance % RECORD as i64);
        self.see(What::Beyond, 0, distance - file.len() as i64);
        if self.wrong.len() == others {
            let first = file.len() - distance as usize;
            self.records(&file[first..file.len() - RECORD]);
        }
    }

    /// Every record, faulty or not. Of other kinds than 1 to 5, 0 counts as a
    /// point and the rest as operators.
    fn records(&mut self, records: &[u8]) {
        let mut held = 0;
        for record in records.chunks(RECORD) {
            self.see(What::Kind, 0, i64::from(record[0]));
            if record[0] < 2 {
                self.point(record);
                held += 1;
                self.see(What::HeldByPoint, 0, held);
            } else {
                (1..RECORD).for_each(|i| self.see(What::OperatorByte, i - 1, i64::from(record[i])));
                self.see(What::HeldByOperator, 0, held);
                held = (held - 1).max(0);
            }
        }
        self.see(What::HeldAtEnd, 0, held);
    }

    fn point(&mut self, record: &[u8]) {
        let signed = |at| i64::from(two(record, at) as i16);
        self.see(What::PointByte, 0, i64::from(record[1]));
        self.see(What::Radius, 0, i64::from(two(record, 2)));
        (0..3).for_each(|i| self.see(What::Centre, i, signed(4 + 2 * i)));
        self.see(What::Weight, 0, signed(10));
    }

    /// The count, the version, the iso-value, every node, faulty or not, and the place.
    fn write(&mut self, request: &Request) {
        let numbers = &request.drawing.numbers;
        self.see(What::GivenCount, 0, numbers.len() as i64);
        self.see(
            What::GivenRemainder,
            0,
            (numbers.len() % NODE_NUMBERS) as i64,
        );
        if !self.wrong.is_empty() {
            return;
        }
        self.see(What::GivenVersion, 0, i64::from(request.drawing.version));
        self.see(What::GivenIso, 0, i64::from(request.drawing.iso));
        self.nodes(numbers);
        let bytes = RECORD * (numbers.len() / NODE_NUMBERS + 1);
        let end = request.place as i128 + bytes as i128;
        let passes = end >= 1 << 64;
        self.see(What::Sum, 0, i64::from(passes));
        if !passes {
            let end = i64::try_from(end).unwrap_or(i64::MAX);
            self.see(What::End, 0, end);
            self.see(What::RoomLeft, 0, request.room as i64 - end);
        }
    }

    /// Every node. Of other kinds than 1 to 5, those whose lower 8 bits are 0 or
    /// 1 count as points and the rest as operators.
    fn nodes(&mut self, numbers: &[i32]) {
        let mut held = 0;
        for six in numbers.chunks(NODE_NUMBERS) {
            let [kind, others @ ..] = [0, 1, 2, 3, 4, 5].map(|i| i64::from(six[i]));
            self.see(What::GivenKind, 0, kind);
            if kind & 0xff < 2 {
                self.given_point(others);
                held += 1;
                self.see(What::HeldByPoint, 0, held);
            } else {
                (0..5).for_each(|i| self.see(What::GivenZero, i, others[i]));
                self.see(What::HeldByOperator, 0, held);
                held = (held - 1).max(0);
            }
        }
        self.see(What::HeldAtEnd, 0, held);
    }

    fn given_point(&mut self, [r, x, y, z, w]: [i64; 5]) {
        self.see(What::GivenRadius, 0, r);
        let centre = [x, y, z].into_iter().enumerate();
        centre.for_each(|(i, c)| self.see(What::GivenCentre, i, c));
        self.see(What::GivenWeight, 0, w);
    }

    fn place(&mut self, at: &[u32]) {
        for (i, &bits) in at.iter().enumerate() {
            self.see(What::PlaceCoordinate, i, i64::from(bits as i32));
        }
    }

    fn ray(&mut self, six: [i64; 6]) {
        for (i, c) in six.into_iter().enumerate() {
            self.see(What::RayCoordinate, i, c);
        }
    }

    fn floats(&mut self, six: [f32; 6]) {
        for (i, float) in six.into_iter().enumerate() {
            self.see(What::Float, i, float_kind(float));
            if is_step(float) {
                self.see(What::FloatSteps, i, (f64::from(float) * 64.0) as i64);
            }
        }
    }
}

/// The unsigned number of two bytes.
fn two(bytes: &[u8], at: usize) -> u16 {
    u16::from(bytes[at]) + 256 * u16::from(bytes[at + 1])
}

/// Whether the 64-fold is whole.
fn is_step(float: f32) -> bool {
    let steps = f64::from(float) * 64.0;
    steps.is_finite() && steps.fract() == 0.0
}

/// 0 for a step, 1 and 2 for the float next above and below one, 3 and 4 for the
/// infinities, 5 for NaN, 6 for others.
fn float_kind(float: f32) -> i64 {
    match float {
        _ if is_step(float) => 0,
        _ if float.is_nan() => 5,
        f32::INFINITY => 3,
        f32::NEG_INFINITY => 4,
        _ if is_step(float.next_down()) => 1,
        _ if is_step(float.next_up()) => 2,
        _ => 6,
    }
}
