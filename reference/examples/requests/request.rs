//! One request, the reference's answer to it, and its form in the stream.

use crate::drawings::Drawing;
use crate::expected::{answered, bounds_number, check_number, viewed};
use crate::expected::{read_number, restore_number, write_number};
use reference::cast;
use reference::field::Ray;
use reference::march::marching_cast;
use reference::totals::Totals;
use reference::view::{viewer_first_hit, ViewRay};
use reference::write::{MOST_NUMBERS, NODE_NUMBERS};
use std::io::{self, Write};
use std::ops::Range;

/// The casting calls; those on a ray in steps by the numbers of `answered`.
pub const FULL_CAST: u8 = 0;
pub const FIRST_HIT: u8 = 1;
pub const COLUMN: u8 = 2;
pub const MARCH: u8 = 3;
pub const VIEW: u8 = 4;
/// How many casting calls there are; a counted one is its number and this.
pub const COUNTED: u8 = 5;
/// The other calls.
pub const CHECK: u8 = 2 * COUNTED;
pub const BOUNDS: u8 = CHECK + 1;
pub const WRITE: u8 = CHECK + 2;
pub const READ: u8 = CHECK + 3;
pub const RESTORE: u8 = CHECK + 4;
/// How many calls there are.
pub const CALLS: usize = 15;

/// The least number that is no refusal's.
const ACCEPTED: u64 = 65_536;
/// Bytes of a number.
const NUMBER_BYTES: usize = 4;

/// A request, and its answer once `answered` has filled it in.
#[derive(Clone, Default)]
pub struct Request {
    pub call: u8,
    pub damaged: bool,
    pub file: Vec<u8>,
    /// What a write is given, in place of a file.
    pub drawing: Drawing,
    /// The saved record that is read, in place of a file.
    pub saved: Vec<u8>,
    /// The bits of A's coordinates and B's, or of a place's and three zeros.
    pub ray: [u32; 6],
    pub budget: u32,
    pub room: usize,
    /// Where in the buffer a write begins.
    pub place: usize,
    pub totals: Totals,
    pub number: u64,
    /// The probes that the call makes; none if it is refused or is no cast.
    pub made: Option<u32>,
    pub written: Vec<u8>,
}

/// The casting call that a call is or counts; none for the others.
pub fn casting(call: u8) -> Option<u8> {
    (call < CHECK).then_some(call % COUNTED)
}

/// Whether the call adds to the totals.
pub fn is_counted(call: u8) -> bool {
    (COUNTED..CHECK).contains(&call)
}

/// The most bytes that a call writes, unless it is a write.
pub fn need(call: u8) -> usize {
    match (casting(call), call) {
        (Some(FULL_CAST | MARCH), _) => cast::TICKS as usize,
        (Some(COLUMN), _) => cast::COLUMN_BYTES,
        (_, BOUNDS) => 16,
        (_, READ) => NUMBER_BYTES * MOST_NUMBERS,
        _ => 0,
    }
}

/// Both ends' coordinates by their bits.
pub fn six<T: Copy>(a: [T; 3], b: [T; 3], bits: fn(T) -> u32) -> [u32; 6] {
    [a[0], a[1], a[2], b[0], b[1], b[2]].map(bits)
}

impl Request {
    /// The ray in steps.
    pub fn steps(&self) -> Ray {
        let [ax, ay, az, bx, by, bz] = self.ray.map(|bits| bits as i32);
        Ray {
            a: [ax, ay, az],
            b: [bx, by, bz],
        }
    }

    /// The ray in millimetres.
    fn millimetres(&self) -> ViewRay {
        let [ax, ay, az, bx, by, bz] = self.ray.map(f32::from_bits);
        ViewRay {
            a: [ax, ay, az],
            b: [bx, by, bz],
        }
    }

    /// The probes that the call needs; none if it is refused whatever its room,
    /// or makes none.
    pub fn probes(&self) -> Option<u32> {
        let (file, ray) = (&self.file, self.steps());
        match casting(self.call)? {
            FIRST_HIT => cast::first_hit(file, &ray, u32::MAX).probes(),
            VIEW => viewer_first_hit(file, self.millimetres(), u32::MAX).probes(),
            MARCH => marching_cast(file, &ray, u32::MAX, &mut [0; 1024]).probes(),
            _ => cast::column(file, &ray, &mut [0; 128]).probes(),
        }
    }

    /// Whether the call is not refused.
    pub fn is_accepted(&self) -> bool {
        self.number >= ACCEPTED
    }

    /// The request with the reference's answer.
    pub fn answered(mut self) -> Request {
        let mut buffer = vec![0; self.room];
        let (file, ray) = (&self.file, self.steps());
        let (number, probes) = match (casting(self.call), self.call) {
            (Some(VIEW), _) => viewed(file, self.millimetres(), self.budget),
            (Some(which), _) => answered(file, u32::from(which), &ray, self.budget, &mut buffer),
            (None, CHECK) => (check_number(file), None),
            (None, BOUNDS) => (bounds_number(file, ray.a, &mut buffer), None),
            (None, WRITE) => (self.write_to(&mut buffer), None),
            (None, READ) => (read_to(file, &mut buffer), None),
            (None, _) => (self.restore(&mut Totals::default()), None),
        };
        self.number = number;
        self.made = probes;
        if self.is_accepted() {
            self.written = buffer[self.changed()].to_vec();
        }
        self
    }

    /// The number of the write.
    fn write_to(&self, buffer: &mut [u8]) -> u64 {
        let drawing = &self.drawing;
        let (iso, version) = (drawing.iso, drawing.version);
        write_number(&drawing.numbers, iso, version, buffer, self.place).into()
    }

    /// The number of the saved record, read into the totals.
    fn restore(&self, totals: &mut Totals) -> u64 {
        restore_number(&self.saved, totals).into()
    }

    /// What the answered call adds to the totals.
    pub fn added(&self) -> Totals {
        match is_counted(self.call) {
            true => Totals::default().after(self.made),
            false => Totals::default(),
        }
    }

    /// The totals after the answered call.
    pub fn after(&self) -> Totals {
        let mut after = self.totals;
        if self.call == RESTORE {
            self.restore(&mut after);
        }
        match is_counted(self.call) {
            true => after.after(self.made),
            false => after,
        }
    }

    /// Which bytes of the buffer an accepted call writes.
    fn changed(&self) -> Range<usize> {
        match self.call {
            WRITE => self.place..(self.number - ACCEPTED) as usize,
            READ => 0..NUMBER_BYTES * NODE_NUMBERS * (self.number >> 16 & 0xffff) as usize,
            call => 0..need(call),
        }
    }

    /// The bytes that the call is handed: the file, a write's numbers, or the
    /// saved record.
    fn handed(&self) -> Vec<u8> {
        match self.call {
            WRITE => bytes_of(&self.drawing.numbers),
            RESTORE => self.saved.clone(),
            _ => self.file.clone(),
        }
    }

    /// Writes the request as the stream's form says.
    pub fn write(&self, to: &mut impl Write) -> io::Result<()> {
        let handed = self.handed();
        let [limit, version] = match self.call {
            WRITE => [self.drawing.iso, self.drawing.version],
            _ => [self.budget, 0],
        };
        to.write_all(&[self.call, u8::from(self.damaged), 0, 0])?;
        write_numbers(to, &[handed.len() as u32])?;
        write_numbers(to, &self.ray)?;
        write_numbers(to, &[limit, self.room as u32])?;
        write_totals(to, self.totals)?;
        to.write_all(&self.number.to_le_bytes())?;
        write_totals(to, self.after())?;
        write_numbers(to, &[self.written.len() as u32])?;
        to.write_all(&(self.place as u64).to_le_bytes())?;
        write_numbers(to, &[version])?;
        to.write_all(&handed)?;
        to.write_all(&self.written)
    }
}

/// The number of the read, and the nodes' numbers as bytes, written unless
/// refused.
fn read_to(file: &[u8], buffer: &mut [u8]) -> u64 {
    let mut numbers = [0; MOST_NUMBERS];
    let number = read_number(file, &mut numbers);
    buffer.copy_from_slice(&bytes_of(&numbers));
    number
}

/// The bytes of signed numbers.
fn bytes_of(numbers: &[i32]) -> Vec<u8> {
    numbers
        .iter()
        .flat_map(|number| number.to_le_bytes())
        .collect()
}

fn write_numbers(to: &mut impl Write, numbers: &[u32]) -> io::Result<()> {
    numbers
        .iter()
        .try_for_each(|number| to.write_all(&number.to_le_bytes()))
}

fn write_totals(to: &mut impl Write, totals: Totals) -> io::Result<()> {
    <[u64; 3]>::from(totals)
        .iter()
        .try_for_each(|total| to.write_all(&total.to_le_bytes()))
}
