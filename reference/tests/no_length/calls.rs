//! The casting calls on a ray, by the reference and by the archive, plain and counted:
//! the number, every byte of the buffer and around it, the totals and the numbers
//! around them, and the file, which stays as it was.

use crate::entries;
use crate::guards::{in_guards, lent};
use reference::cast::{column_by, first_hit_by, full_cast_by};
use reference::field::{Ray, SpanBounds};
use reference::march::marching_cast_by;
use reference::totals::Totals;
use reference::view::{in_millimetres, viewer_first_hit_by};

#[derive(Clone, Copy, Debug, PartialEq, Eq)]
pub enum Call {
    FullCast,
    MarchingCast,
    FirstHit,
    Column,
    Viewer,
}

pub const CALLS: [Call; 5] = [
    Call::FullCast,
    Call::MarchingCast,
    Call::FirstHit,
    Call::Column,
    Call::Viewer,
];

/// What a counted call leaves: its number, the bytes of its buffer and around it,
/// and the totals.
#[derive(Clone, Debug, PartialEq, Eq)]
pub struct Answer {
    pub number: u64,
    pub bytes: Vec<u8>,
    pub totals: Totals,
}

impl Call {
    /// The bytes that it writes.
    pub fn need(self) -> usize {
        match self {
            Call::FullCast | Call::MarchingCast => 1024,
            Call::Column => 128,
            Call::FirstHit | Call::Viewer => 0,
        }
    }

    /// The reference's number and probes, by the bounds named.
    fn expected<F: SpanBounds>(
        self,
        file: &[u8],
        ray: &Ray,
        budget: u32,
        buffer: &mut [u8],
    ) -> (u64, Option<u32>) {
        let hit = match self {
            Call::FullCast | Call::MarchingCast => {
                let cast = match self {
                    Call::FullCast => full_cast_by::<F>,
                    _ => marching_cast_by::<F>,
                };
                let answer = cast(file, ray, budget, buffer);
                return (answer.number().into(), answer.probes());
            }
            Call::Column => {
                let answer = column_by::<F>(file, ray, buffer);
                return (answer.number().into(), answer.probes());
            }
            Call::FirstHit => first_hit_by::<F>(file, ray, budget),
            Call::Viewer => viewer_first_hit_by::<F>(file, in_millimetres(ray), budget).in_ticks(),
        };
        (hit.number(), hit.probes())
    }

    /// The archive's number of the plain call.
    pub fn plain(self, file: &[u8], ray: &Ray, budget: u32, buffer: &mut [u8]) -> u64 {
        match self {
            Call::FullCast => entries::full_cast(file, ray, budget, buffer).into(),
            Call::MarchingCast => entries::marching_cast(file, ray, budget, buffer).into(),
            Call::FirstHit => entries::first_hit(file, ray, budget),
            Call::Column => entries::column(file, ray, buffer).into(),
            Call::Viewer => entries::viewer_first_hit(file, &in_millimetres(ray), budget),
        }
    }

    /// The archive's number of the counted call.
    fn counted(
        self,
        file: &[u8],
        ray: &Ray,
        budget: u32,
        buffer: &mut [u8],
        totals: &mut [u64; 3],
    ) -> u64 {
        match self {
            Call::FullCast => entries::full_cast_counted(file, ray, budget, buffer, totals).into(),
            Call::MarchingCast => {
                entries::marching_cast_counted(file, ray, budget, buffer, totals).into()
            }
            Call::FirstHit => entries::first_hit_counted(file, ray, budget, totals),
            Call::Column => entries::column_counted(file, ray, buffer, totals).into(),
            Call::Viewer => {
                let view = in_millimetres(ray);
                entries::viewer_first_hit_counted(file, &view, budget, totals)
            }
        }
    }

    /// What the reference answers by the bounds named.
    pub fn by<F: SpanBounds>(
        self,
        file: &[u8],
        ray: &Ray,
        budget: u32,
        room: usize,
        totals: Totals,
    ) -> Answer {
        let ((number, probes), bytes) =
            in_guards(room, |b| self.expected::<F>(file, ray, budget, b));
        Answer {
            number,
            bytes,
            totals: totals.after(probes),
        }
    }

    /// What the archive answers to the counted call.
    pub fn of_archive(
        self,
        file: &[u8],
        ray: &Ray,
        budget: u32,
        room: usize,
        before: Totals,
    ) -> Answer {
        let ((number, bytes), totals) = lent(before, |t| {
            in_guards(room, |b| self.counted(file, ray, budget, b, t))
        });
        Answer {
            number,
            bytes,
            totals,
        }
    }
}

/// A host with its running totals.
#[derive(Debug, Default)]
pub struct Host {
    totals: Totals,
}

impl Host {
    /// Calls made, each plain and counted.
    pub fn calls(&self) -> u64 {
        2 * (self.totals.casts + self.totals.refusals)
    }

    /// A call, plain and counted, compared with the reference by the bounds named.
    pub fn compare<F: SpanBounds>(
        &mut self,
        call: Call,
        (file, ray): (&[u8], &Ray),
        budget: u32,
        room: usize,
    ) -> Answer {
        let copy = file.to_vec();
        let right = call.by::<F>(file, ray, budget, room, self.totals);
        let found = call.of_archive(&copy, ray, budget, room, self.totals);
        let (number, bytes) = in_guards(room, |b| call.plain(&copy, ray, budget, b));
        let request = || format!("{call:?} {ray:?} {budget} {room} {file:?}");
        assert_eq!(found, right, "{}", request());
        assert_eq!(
            (number, &bytes),
            (right.number, &right.bytes),
            "{}",
            request()
        );
        assert_eq!(copy, file);
        self.totals = right.totals;
        right
    }
}
