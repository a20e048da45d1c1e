//! Counted calls, drawn or worked out. Each test has its own way to make one and
//! to compare it.

use crate::floats::changed;
use crate::requests::{file, ray, GROUPS};
use crate::worked::{at_y, file_k, AXIS};
use reference::field::Ray;
use reference::generate::{part_of_form, SplitMix64, FORMS};
use reference::part::FileBuilder;
use reference::totals::Totals;
use reference::view::{in_millimetres, ViewRay};

/// Makes a call and compares it with the reference; its probes, or `None` if
/// refused.
pub type Compare = fn(&Request, &mut Totals) -> Option<u32>;

/// A counted call.
#[derive(Clone, Debug)]
pub struct Request {
    pub file: Vec<u8>,
    pub call: Call,
    pub budget: u32,
}

/// How many kinds of calls there are: full cast, first hit, column, marching cast,
/// viewer's.
pub const KINDS: usize = 5;

/// The number of a marching cast, and its place among the kinds.
const MARCHING: u32 = 3;

#[derive(Clone, Debug)]
pub enum Call {
    /// On a ray in steps: 0 full cast, 1 first hit, 2 column, 3 marching cast, with
    /// room for so many bytes.
    Steps { which: u32, ray: Ray, room: usize },
    /// The viewer's.
    View(ViewRay),
}

impl Request {
    pub fn new(random: &mut SplitMix64) -> Request {
        let (_, shape) = random.pick(&GROUPS[..6]);
        let form = random.pick(&FORMS);
        let part = part_of_form(random, &shape, form);
        let file = file(random, &part);
        let ray = ray(random, &part);
        let which = random.pick(&[0, 1, 2, MARCHING]);
        let room = random.pick(&[0, 127, 128, 1023, 1024, 1024, 1024, 1024, 1200, 1200]);
        let call = match random.one_in(5) {
            true => Call::View(changed(random, &in_millimetres(&ray)).0),
            false => Call::Steps { which, ray, room },
        };
        let budget = random.pick(&[0, 1, 5, 14, 40, 2046, 2047, 2052, u32::MAX]);
        Request { file, call, budget }
    }

    /// Its place among the kinds.
    pub fn kind(&self) -> usize {
        match self.call {
            Call::Steps { which, .. } => which as usize,
            Call::View(_) => KINDS - 1,
        }
    }

    #[allow(dead_code)]
    pub fn is_marching(&self) -> bool {
        self.kind() == MARCHING as usize
    }

    /// The same call on a file that is refused.
    pub fn refused(&self) -> Request {
        let mut refused = self.clone();
        refused.file.pop();
        refused
    }
}

/// The probes of the calls on a ray: of a full cast and a column, of a first hit,
/// of a marching cast.
struct Probes {
    halving: u32,
    first_hit: u32,
    marching: u32,
}

/// A call of each kind on a file and a ray, and its probes. The budget is one
/// with which every cast is complete.
fn each_call(file: Vec<u8>, ray: Ray, probes: Probes) -> [(Request, u32); KINDS] {
    let request = |call| Request {
        file: file.clone(),
        call,
        budget: 2052,
    };
    let steps = |which, room| request(Call::Steps { which, ray, room });
    let viewer = request(Call::View(in_millimetres(&ray)));
    [
        (steps(0, 1024), probes.halving),
        (steps(1, 0), probes.first_hit),
        (steps(2, 128), probes.halving),
        (steps(MARCHING, 1024), probes.marching),
        (viewer, probes.first_hit),
    ]
}

/// Those on the lister's ray through file K.
pub fn on_axis() -> [(Request, u32); KINDS] {
    let probes = Probes {
        halving: 39,
        first_hit: 15,
        marching: 49,
    };
    each_call(file_k(), AXIS, probes)
}

/// Those with the fewest probes.
pub fn fewest_probes() -> [(Request, u32); KINDS] {
    let probes = Probes {
        halving: 1,
        first_hit: 1,
        marching: 5,
    };
    each_call(file_k(), at_y(512), probes)
}

/// Those with the most: two points that cancel, along a ray on which the high of
/// each tick is below the iso-value and that of each two ticks is not.
pub fn most_probes() -> [(Request, u32); KINDS] {
    let file = FileBuilder::new(1).point(1024, [0; 3], 1425);
    let file = file.point(1024, [0; 3], -1425).sum().build();
    let ray = Ray {
        a: [410, 0, 0],
        b: [768, 0, 0],
    };
    let probes = Probes {
        halving: 2047,
        first_hit: 2047,
        marching: 2052,
    };
    each_call(file, ray, probes)
}
