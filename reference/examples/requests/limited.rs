//! What the questions limit, and the limits.

use crate::request::{casting, BOUNDS, COLUMN, FULL_CAST, MARCH, RESTORE, VIEW, WRITE};
use std::ops::RangeInclusive;

/// A number of a request that a question limits, or several of one kind; also
/// its place in `ALL`.
#[derive(Clone, Copy, Debug, PartialEq, Eq, PartialOrd, Ord)]
pub enum What {
    Length,
    Mark,
    Version,
    Distance,
    Remainder,
    Beyond,
    Iso,
    Kind,
    PointByte,
    OperatorByte,
    Radius,
    Centre,
    Weight,
    HeldByOperator,
    HeldByPoint,
    HeldAtEnd,
    RayCoordinate,
    PlaceCoordinate,
    MarksRoom,
    ColumnRoom,
    FloatSteps,
    Float,
    GivenCount,
    GivenRemainder,
    GivenVersion,
    GivenIso,
    GivenKind,
    GivenZero,
    GivenRadius,
    GivenCentre,
    GivenWeight,
    End,
    RoomLeft,
    Sum,
    SavedLength,
}

/// The question about it, and the limits.
pub struct Limited {
    pub what: What,
    pub question: u64,
    pub name: &'static str,
    /// How many there are of the kind.
    pub members: usize,
    /// What is accepted.
    pub range: RangeInclusive<i64>,
    /// At each limit the last number accepted and the first refused.
    pub limits: &'static [[i64; 2]],
    /// Whether a call asks.
    pub asks: fn(u8) -> bool,
}

/// What is limited, of one member, in calls that are handed a file.
const fn one(
    what: What,
    question: u64,
    name: &'static str,
    range: RangeInclusive<i64>,
    limits: &'static [[i64; 2]],
) -> Limited {
    Limited {
        what,
        question,
        name,
        members: 1,
        range,
        limits,
        asks: |call| call != WRITE && call != RESTORE,
    }
}

impl Limited {
    const fn members(mut self, members: usize) -> Limited {
        self.members = members;
        self
    }

    const fn in_a_write(self) -> Limited {
        self.asked_by(|call| call == WRITE)
    }

    const fn of_nodes(self) -> Limited {
        self.asked_by(|call| call != RESTORE)
    }

    const fn asked_by(mut self, asks: fn(u8) -> bool) -> Limited {
        self.asks = asks;
        self
    }
}

const MOST: i64 = i64::MAX;
const REACH: RangeInclusive<i64> = -2047..=2047;
const OF_REACH: &[[i64; 2]] = &[[2047, 2048], [-2047, -2048]];
const OF_FLOATS: &[[i64; 2]] = &[[0, 1], [0, 2], [0, 3], [0, 4], [0, 5]];
/// The last pairs are of numbers that fewer bits do not tell apart.
const OF_GIVEN_REACH: &[[i64; 2]] = &[[2047, 2048], [-2047, -2048], [0, 65_536]];
const OF_GIVEN_WEIGHT: &[[i64; 2]] = &[[4096, 4097], [-4096, -4097], [0, 65_536]];
const OF_GIVEN_VERSION: &[[i64; 2]] = &[
    [1, 0],
    [2, 3],
    [1, 257],
    [1, 65_537],
    [2, 65_538],
    [1, ALL_BITS],
];
const ALL_BITS: i64 = 0xffff_ffff;

fn in_steps(call: u8) -> bool {
    casting(call).is_some_and(|which| which != VIEW)
}

/// All that is limited, in the questions' order.
#[rustfmt::skip]
pub const ALL: [Limited; 35] = [
    one(What::Length, 1, "the file's length", 24..=65_536, &[[24, 23], [65_536, 65_537]]),
    one(What::Mark, 2, "the mark's four bytes", 0..=0, &[[0, 1]]).members(4),
    one(What::Version, 3, "the version", 1..=2, &[[1, 0], [2, 3], [1, 257], [2, 258]]),
    one(What::Distance, 4, "the distance back", 24..=6144, &[[24, 12], [6144, 6156]]),
    one(What::Remainder, 4, "the distance's remainder by 12", 0..=0, &[[0, 1], [0, 11]]),
    one(What::Beyond, 4, "the distance less the length", -MOST..=0, &[[0, 12]]),
    one(What::Iso, 5, "iso", 1..=4096, &[[1, 0], [4096, 4097]]),
    one(What::Kind, 6, "a record's kind", 1..=5, &[[1, 0], [5, 6]]),
    one(What::PointByte, 7, "a point's byte 1", 0..=0, &[[0, 1]]),
    one(What::OperatorByte, 7, "an operator's bytes 1 to 11", 0..=0, &[[0, 1]]).members(11),
    one(What::Radius, 8, "a point's r", 1..=1024, &[[1, 0], [1024, 1025]]),
    one(What::Centre, 8, "its x, y and z", REACH, OF_REACH).members(3),
    one(What::Weight, 8, "its w", -4096..=4096, &[[4096, 4097], [-4096, -4097]]),
    one(What::HeldByOperator, 9, "values held before an operator", 2..=MOST, &[[2, 1]]).of_nodes(),
    one(What::HeldByPoint, 10, "values held with a point", 1..=64, &[[64, 65]]).of_nodes(),
    one(What::HeldAtEnd, 11, "values held at the end", 1..=1, &[[1, 2]]).of_nodes(),
    one(What::RayCoordinate, 12, "the ray's six coordinates", REACH, OF_REACH).members(6)
        .asked_by(in_steps),
    one(What::PlaceCoordinate, 12, "the place's three", REACH, OF_REACH).members(3)
        .asked_by(|call| call == BOUNDS),
    one(What::MarksRoom, 14, "the room for marks", 1024..=MOST, &[[1024, 1023]])
        .asked_by(|call| matches!(casting(call), Some(FULL_CAST | MARCH))),
    one(What::ColumnRoom, 14, "the room for a column", 128..=MOST, &[[128, 127]])
        .asked_by(|call| casting(call) == Some(COLUMN)),
    one(What::FloatSteps, 15, "the 64-folds of the six floats", REACH, OF_REACH).members(6)
        .asked_by(|call| casting(call) == Some(VIEW)),
    one(What::Float, 15, "the six floats", 0..=0, OF_FLOATS).members(6)
        .asked_by(|call| casting(call) == Some(VIEW)),
    one(What::GivenCount, 16, "the number count", 6..=3066, &[[6, 0], [3066, 3072]]).in_a_write(),
    one(What::GivenRemainder, 16, "its remainder by six", 0..=0, &[[0, 1], [0, 5]]).in_a_write(),
    one(What::GivenVersion, 3, "a write's version", 1..=2, OF_GIVEN_VERSION).in_a_write(),
    one(What::GivenIso, 5, "a write's iso", 1..=4096, &[[1, 0], [4096, 4097], [1, 65_537]]).in_a_write(),
    one(What::GivenKind, 6, "a node's kind", 1..=5, &[[1, 0], [5, 6], [1, 257]]).in_a_write(),
    one(What::GivenZero, 7, "an operator's other numbers", 0..=0, &[[0, 1], [0, -1], [0, 65_536]])
        .members(5).in_a_write(),
    one(What::GivenRadius, 8, "a point's r", 1..=1024, &[[1, 0], [1024, 1025], [1, 65_537]]).in_a_write(),
    one(What::GivenCentre, 8, "its x, y and z", REACH, OF_GIVEN_REACH).members(3).in_a_write(),
    one(What::GivenWeight, 8, "its w", -4096..=4096, OF_GIVEN_WEIGHT).in_a_write(),
    one(What::End, 17, "the place after the trailer", 24..=65_536, &[[65_536, 65_537]]).in_a_write(),
    one(What::RoomLeft, 17, "the room less that place", 0..=MOST, &[[0, -1]]).in_a_write(),
    one(What::Sum, 17, "that place in 64 bits", 0..=0, &[[0, 1]]).in_a_write(),
    one(What::SavedLength, 18, "the saved record's length", 12..=12, &[[12, 0], [12, 11], [12, 13], [12, 24]])
        .asked_by(|call| call == RESTORE),
];

impl What {
    /// Its row of `ALL`.
    pub fn limited(self) -> &'static Limited {
        static ROWS: [Limited; 35] = ALL;
        let row = &ROWS[self as usize];
        assert_eq!(row.what, self);
        row
    }

    /// A number as the table shows it.
    pub fn shown(self, value: i64) -> String {
        let names: &[&str] = match self {
            What::Mark => &["right", "one bit other"],
            What::Float => &[
                "a step",
                "the next float",
                "the one before",
                "infinity",
                "-infinity",
                "NaN",
            ],
            What::Sum => &["fits", "passes 2^64 - 1"],
            _ => return grouped(value),
        };
        names[value as usize].to_string()
    }
}

/// The number with a comma before each three digits.
pub fn grouped(number: i64) -> String {
    let digits = number.unsigned_abs().to_string();
    let mut text = String::from(if number < 0 { "-" } else { "" });
    for (i, digit) in digits.chars().enumerate() {
        if i > 0 && (digits.len() - i).is_multiple_of(3) {
            text.push(',');
        }
        text.push(digit);
    }
    text
}
