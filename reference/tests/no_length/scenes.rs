//! A part and a place, and what the rules make of the ray from the place to itself.

use crate::calls::{Call, Host, CALLS};
use crate::entries;
use crate::guards::GUARD;
use reference::cast::{judge, middle_solid, Mark};
use reference::field::{field_at, place_bounds, rounding, tolerance, whole_place};
use reference::field::{Bounds, ExactField, Ray, SpanBounds};
use reference::fraction::Fraction;
use reference::part::{FileBuilder, Part};

/// A budget with which every call is complete.
pub const ENOUGH: u32 = 2052;

#[derive(Clone, Debug)]
pub struct Scene {
    pub part: Part,
    pub file: Vec<u8>,
    pub ray: Ray,
    /// At the place, by fractions.
    pub bounds: Bounds,
    pub mark: Mark,
}

impl Scene {
    pub fn new(part: Part, at: [i32; 3]) -> Scene {
        let bounds = place_bounds(&part, &whole_place(at)).expect("a tree");
        Scene {
            file: FileBuilder::from(&part).build(),
            ray: Ray { a: at, b: at },
            bounds,
            mark: judge(bounds, part.iso),
            part,
        }
    }

    /// Whether its ticks are solid in a column.
    pub fn solid(&self) -> bool {
        match self.mark {
            Mark::Empty => false,
            Mark::Crossing => middle_solid(self.bounds, self.part.iso),
            Mark::Inside => true,
        }
    }

    /// The file and the ray.
    pub fn request(&self) -> (&[u8], &Ray) {
        (&self.file, &self.ray)
    }

    /// The number of a call that is complete.
    fn complete(&self, call: Call) -> u64 {
        let undecided = self.mark == Mark::Crossing;
        match call {
            Call::FullCast | Call::Column => 65_536 + if undecided { 2047 } else { 1 },
            Call::MarchingCast => 65_536 + if undecided { 2052 } else { 5 },
            Call::FirstHit | Call::Viewer => match self.mark {
                Mark::Empty => (3 << 32) + 1,
                Mark::Crossing => (1 << 32) + 11,
                Mark::Inside => (2 << 32) + 1,
            },
        }
    }

    /// The byte that a complete call fills its buffer with.
    fn byte(&self, call: Call) -> u8 {
        match call {
            Call::Column if self.solid() => 0xff,
            Call::Column => 0,
            _ => self.mark.byte(),
        }
    }

    /// The archive's bounds at the place are those by fractions, and each call that is
    /// complete marks every tick by them.
    fn assert_marked_by_the_place(&self, host: &mut Host) {
        let mut bounds = [0; 2];
        let number = entries::place_bounds(&self.file, self.ray.a, &mut bounds);
        let [low, high] = bounds;
        assert_eq!((number, Bounds { low, high }), (65_536, self.bounds));
        for call in CALLS {
            let room = call.need();
            let answer = host.compare::<OnePlace>(call, self.request(), ENOUGH, room);
            assert_eq!(answer.number, self.complete(call), "{call:?} {self:?}");
            let mut written = answer.bytes[GUARD..GUARD + room].iter();
            assert!(written.all(|&byte| byte == self.byte(call)), "{self:?}");
        }
    }

    /// The exact field at the place, with S equal to 0: below iso if the ticks are
    /// empty, at least iso if they are inside, else no farther from it than the sum of
    /// |w|/16384, or 7|w|/65536 for degree 6.
    fn assert_accurate(&self) {
        let field = field_at(&self.part, &whole_place(self.ray.a)).expect("a tree");
        let iso = Fraction::from(i64::from(self.part.iso));
        let most = rounding(&self.part);
        assert_eq!(tolerance(&self.part, &self.ray), most);
        let right = match self.mark {
            Mark::Empty => field < iso,
            Mark::Crossing => (&field - &iso).abs() <= most.expect("a tree"),
            Mark::Inside => field >= iso,
        };
        assert!(right, "{field} {self:?}");
    }

    /// The marks by the place, the accuracy, and calls with the budgets given.
    pub fn check(&self, host: &mut Host, budgets: &[u32]) {
        self.assert_marked_by_the_place(host);
        self.assert_accurate();
        for call in CALLS {
            for &budget in budgets {
                host.compare::<OnePlace>(call, self.request(), budget, call.need());
            }
        }
    }

    /// Each call compared with the fractions, every span and middle worked out afresh.
    pub fn check_afresh(&self, host: &mut Host) {
        for call in CALLS {
            host.compare::<ExactField>(call, self.request(), ENOUGH, call.need() + 3);
        }
    }
}

/// The bounds at the ray's end A, by fractions, for every span and every middle.
pub struct OnePlace(Option<Bounds>);

impl SpanBounds for OnePlace {
    fn new(part: &Part, ray: Ray) -> OnePlace {
        OnePlace(place_bounds(part, &whole_place(ray.a)))
    }

    fn bounds(&self, _: u32, _: u32) -> Option<Bounds> {
        self.0
    }

    fn middle(&self, _: u32) -> Option<Bounds> {
        self.0
    }
}
