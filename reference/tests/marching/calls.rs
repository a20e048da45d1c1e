//! Marching casts of the archive, each made plain and counted and compared with the
//! reference: the number, every byte of the buffer and around it, the totals and the
//! numbers around them, and the file, which stays as it was.

use crate::entries;
use crate::guards::{in_guards, lent, GUARD};
use reference::cast::FullCast;
use reference::field::{ExactField, Ray};
use reference::march::{marching_cast, marching_cast_by};
use reference::totals::Totals;

/// A marching cast of the reference.
type Reference = fn(&[u8], &Ray, u32, &mut [u8]) -> FullCast;

/// A host with its running totals.
pub struct Host {
    reference: Reference,
    totals: Totals,
}

impl Host {
    /// A host that is compared with the quick path.
    pub fn quick() -> Host {
        Host {
            reference: marching_cast,
            totals: Totals::default(),
        }
    }

    /// A host that is compared with the exact fractions.
    pub fn exact() -> Host {
        Host {
            reference: marching_cast_by::<ExactField>,
            totals: Totals::default(),
        }
    }

    /// A marching cast, and what is in its buffer afterwards.
    pub fn cast(
        &mut self,
        file: &[u8],
        ray: &Ray,
        budget: u32,
        room: usize,
    ) -> (FullCast, Vec<u8>) {
        let copy = file.to_vec();
        let plain = in_guards(room, |b| entries::marching_cast(&copy, ray, budget, b));
        let (counted, after) = lent(self.totals, |totals| {
            in_guards(room, |b| {
                entries::marching_cast_counted(&copy, ray, budget, b, totals)
            })
        });
        let (answer, bytes) = in_guards(room, |b| (self.reference)(file, ray, budget, b));
        let request = || format!("{ray:?} {budget} {room} {file:?}");
        for (number, left) in [plain, counted] {
            assert_eq!(number, answer.number(), "{}", request());
            assert_eq!(left, bytes, "{}", request());
        }
        self.totals = self.totals.after(answer.probes());
        assert_eq!(after, self.totals, "{}", request());
        assert_eq!(copy, file);
        (answer, bytes[GUARD..GUARD + room].to_vec())
    }

    /// A marching cast with enough budget, whose marks are those of the archive's
    /// own full cast: its probes, the full cast's, and the marks.
    pub fn complete(&mut self, file: &[u8], ray: &Ray) -> (u32, u32, Vec<u8>) {
        let (answer, marks) = self.cast(file, ray, 2052, 1024);
        let FullCast::Complete { probes } = answer else {
            panic!("{answer:?} {ray:?} {file:?}");
        };
        let mut halved = [9; 1024];
        let number = entries::full_cast(file, ray, 2047, &mut halved);
        let halving = number.checked_sub(65_536).expect("an accepted ray");
        assert!(halving <= 2047, "{ray:?} {file:?}");
        assert_eq!(marks, halved, "{ray:?} {file:?}");
        (probes, halving, marks)
    }
}
