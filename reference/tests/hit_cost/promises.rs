//! What is promised of a first hit's probes and budget, and what it is said of.

use reference::cast::{judge, judge_tick, FirstHit, Mark, TICKS};
use reference::field::{Ray, SpanBounds};
use reference::part::{FileBuilder, Part};
use reference::quick::TickField;

/// What a first hit found at tick h costs at most, and a budget that is enough for it.
pub fn figure(h: u32) -> u32 {
    2 * h + 11
}

/// The first tick that is not empty, each tick judged alone, and its mark.
pub type First = Option<(u32, Mark)>;

/// A part, its file and a ray.
#[derive(Clone, Debug)]
pub struct Scene {
    pub part: Part,
    pub file: Vec<u8>,
    pub ray: Ray,
    pub first: First,
}

impl Scene {
    /// Each tick is judged by the quick path.
    pub fn new(part: Part, ray: Ray) -> Scene {
        let field = TickField::new(&part, ray);
        let mark = |t| judge(field.bounds(t, t + 1).expect("a tree"), part.iso);
        let first = first_of(mark);
        let file = FileBuilder::from(&part).build();
        Scene {
            part,
            file,
            ray,
            first,
        }
    }

    /// The first tick that is not empty, each judged by the fractions.
    pub fn first_by_fractions(&self) -> First {
        first_of(|t| judge_tick(&self.part, &self.ray, t).expect("a tree"))
    }

    /// Whether an answer with a budget keeps to a figure: a hit is the first tick that
    /// is not empty and costs no more than its figure, a search that is spent had a
    /// smaller budget than the figure of the tick reached, and smaller than that of the
    /// first tick that is not empty.
    pub fn keeps(&self, figure: fn(u32) -> u32, budget: u32, answer: FirstHit) -> bool {
        match answer {
            FirstHit::Hit { tick, mark, probes } => {
                self.first == Some((tick, mark)) && probes <= figure(tick)
            }
            FirstHit::Spent { tick, .. } => {
                let covered = self.first.is_some_and(|(h, _)| budget >= figure(h));
                budget < figure(tick) && !covered
            }
            FirstHit::Clear { .. } => self.first.is_none(),
            FirstHit::Refused(_) => false,
        }
    }
}

fn first_of(mark: impl Fn(u32) -> Mark) -> First {
    let mut marks = (0..TICKS).map(|t| (t, mark(t)));
    marks.find(|(_, mark)| *mark != Mark::Empty)
}
