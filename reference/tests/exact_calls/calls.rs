//! Calls of the archive, each compared with the reference by exact fractions:
//! the number, every byte of the buffer and around it, the totals, and the
//! file, which stays as it was. They answer the reference's answer. A casting
//! call is made twice, plain and counted.

use crate::entries;
use crate::guards::{in_guards, GUARD};
use reference::cast::{bounds_at, column_by, first_hit_by, full_cast_by};
use reference::cast::{Column, FirstHit, FullCast};
use reference::field::{Bounds, ExactField, Ray};
use reference::march::marching_cast_by;
use reference::part::{self, Part};
use reference::totals::Totals;
use reference::view::{viewer_first_hit_by, ViewRay, ViewerHit};

/// What the bounds' two numbers are before a call.
const BEFORE: [i64; 2] = [-7, 7];

/// A host with its running totals.
#[derive(Default)]
pub struct Host {
    /// As the archive leaves them.
    lent: [u64; 3],
    /// As the reference has them.
    totals: Totals,
}

impl Host {
    /// The totals after a casting call with these probes, or refused.
    fn count(&mut self, probes: Option<u32>) {
        self.totals = self.totals.after(probes);
        assert_eq!(self.lent, <[u64; 3]>::from(self.totals));
    }

    /// A full cast, and the marks it leaves.
    pub fn full_cast(
        &mut self,
        file: &[u8],
        ray: &Ray,
        budget: u32,
        room: usize,
    ) -> (FullCast, Vec<u8>) {
        let expected = in_guards(room, |b| full_cast_by::<ExactField>(file, ray, budget, b));
        let copy = file.to_vec();
        let plain = in_guards(room, |b| entries::full_cast(&copy, ray, budget, b));
        let totals = &mut self.lent;
        let counted = in_guards(room, |b| {
            entries::full_cast_counted(&copy, ray, budget, b, totals)
        });
        assert_eq!(copy, file);
        let request = || format!("{ray:?} {budget} {file:?}");
        self.marks(expected, [plain, counted], &request)
    }

    /// A marching cast, and the marks it leaves.
    #[allow(dead_code)]
    pub fn marching_cast(
        &mut self,
        file: &[u8],
        ray: &Ray,
        budget: u32,
        room: usize,
    ) -> (FullCast, Vec<u8>) {
        let expected = in_guards(room, |b| {
            marching_cast_by::<ExactField>(file, ray, budget, b)
        });
        let copy = file.to_vec();
        let plain = in_guards(room, |b| entries::marching_cast(&copy, ray, budget, b));
        let totals = &mut self.lent;
        let counted = in_guards(room, |b| {
            entries::marching_cast_counted(&copy, ray, budget, b, totals)
        });
        assert_eq!(copy, file);
        let request = || format!("{ray:?} {budget} {file:?}");
        self.marks(expected, [plain, counted], &request)
    }

    /// Compares what the archive answers, plain and counted, with the expected
    /// answer and bytes; the answer, and the marks among the bytes. No byte is one
    /// beforehand.
    fn marks(
        &mut self,
        (answer, bytes): (FullCast, Vec<u8>),
        found: [(u32, Vec<u8>); 2],
        request: &dyn Fn() -> String,
    ) -> (FullCast, Vec<u8>) {
        for (number, left) in found {
            assert_eq!(number, answer.number(), "{}", request());
            assert_eq!(left, bytes, "{}", request());
        }
        self.count(answer.probes());
        let marks = bytes.into_iter().filter(|&byte| byte < 4);
        (answer, marks.collect())
    }

    /// A first hit.
    pub fn first_hit(&mut self, file: &[u8], ray: &Ray, budget: u32) -> FirstHit {
        let answer = first_hit_by::<ExactField>(file, ray, budget);
        let copy = file.to_vec();
        let plain = entries::first_hit(&copy, ray, budget);
        let counted = entries::first_hit_counted(&copy, ray, budget, &mut self.lent);
        let expected = [answer.number(); 2];
        assert_eq!([plain, counted], expected, "{ray:?} {budget} {file:?}");
        assert_eq!(copy, file);
        self.count(answer.probes());
        answer
    }

    /// A column.
    #[allow(dead_code)]
    pub fn column(&mut self, file: &[u8], ray: &Ray, room: usize) -> Column {
        self.column_and_bits(file, ray, room).0
    }

    /// A column, and the bytes of its buffer.
    pub fn column_and_bits(&mut self, file: &[u8], ray: &Ray, room: usize) -> (Column, Vec<u8>) {
        let (answer, bytes) = in_guards(room, |b| column_by::<ExactField>(file, ray, b));
        let bits = bytes[GUARD..GUARD + room].to_vec();
        let expected = (answer.number(), bytes);
        let copy = file.to_vec();
        let plain = in_guards(room, |b| entries::column(&copy, ray, b));
        let totals = &mut self.lent;
        let counted = in_guards(room, |b| entries::column_counted(&copy, ray, b, totals));
        assert_eq!(plain, expected, "{ray:?} {file:?}");
        assert_eq!(counted, expected, "{ray:?} {file:?}");
        assert_eq!(copy, file);
        self.count(answer.probes());
        (answer, bits)
    }

    /// A viewer's first hit.
    pub fn viewer_first_hit(&mut self, file: &[u8], ray: &ViewRay, budget: u32) -> ViewerHit {
        let answer = viewer_first_hit_by::<ExactField>(file, *ray, budget);
        let copy = file.to_vec();
        let plain = entries::viewer_first_hit(&copy, ray, budget);
        let totals = &mut self.lent;
        let counted = entries::viewer_first_hit_counted(&copy, ray, budget, totals);
        let expected = [answer.in_ticks().number(); 2];
        let ends = [ray.a, ray.b].map(|end| end.map(f32::to_bits));
        assert_eq!([plain, counted], expected, "{ends:08x?} {budget} {file:?}");
        assert_eq!(copy, file);
        self.count(answer.probes());
        answer
    }
}

/// A check of a file: its node count and iso-value.
pub fn check(file: &[u8]) -> Result<(u32, u32), u32> {
    let answer = part::read(file);
    let expected = match &answer {
        Ok(Part { iso, degree, nodes }) => {
            let [iso, version] = [*iso, degree.version()].map(u64::from);
            version * 4_294_967_296 + nodes.len() as u64 * 65_536 + iso
        }
        Err(number) => u64::from(*number),
    };
    let copy = file.to_vec();
    assert_eq!(entries::check(&copy), expected, "{file:?}");
    assert_eq!(copy, file);
    part::check(file)
}

/// The bounds at a place.
pub fn place_bounds(file: &[u8], at: [i32; 3]) -> Result<Bounds, u32> {
    let answer = bounds_at(file, at);
    let expected = match answer {
        Ok(Bounds { low, high }) => (65_536, [low, high]),
        Err(number) => (number, BEFORE),
    };
    let copy = file.to_vec();
    let mut bounds = BEFORE;
    let number = entries::place_bounds(&copy, at, &mut bounds);
    assert_eq!((number, bounds), expected, "{at:?} {file:?}");
    assert_eq!(copy, file);
    answer
}
