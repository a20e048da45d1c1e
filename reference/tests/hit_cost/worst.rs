//! Generated parts and rays on which a first hit costs the most. Two points cancel
//! along the ray: every tick is empty, and every longer stretch undecided. A ball
//! that begins in tick h is the hit.

use crate::promises::{figure, Scene};
use reference::cast::{judge, Mark};
use reference::field::{Ray, SpanBounds};
use reference::generate::SplitMix64;
use reference::part::{read, FileBuilder, Kind, Part, OPERATORS};
use reference::quick::TickField;
use std::sync::OnceLock;

/// The most probes of a crossing hit at tick h, with every longer stretch before it
/// undecided: the figure less the ones of h's binary digits.
pub fn most(h: u32) -> u32 {
    figure(h) - h.count_ones()
}

/// The fewest, with each half before it decided.
pub fn fewest(h: u32) -> u32 {
    11 + h.count_ones()
}

/// Two points that cancel, and a ray along an axis, 410 to 768 steps from their centre
/// or the other way. The high of each tick is below the iso-value, and that of two
/// ticks is not.
pub struct Cancelled {
    iso: u16,
    centre: [i16; 3],
    w: i16,
    along: usize,
    pub ray: Ray,
}

impl Cancelled {
    pub fn new(random: &mut SplitMix64) -> Cancelled {
        let iso = random.between(1, 2);
        let w = iso * random.between(1110, 1770);
        let centre = [0; 3].map(|_| random.between(-500, 500) as i16);
        let along = random.between(0, 2) as usize;
        let side = random.pick(&[-1, 1]);
        let end = |steps: i32| {
            let mut at = centre.map(i32::from);
            at[along] += side * steps;
            at
        };
        let (a, b) = random.pick(&[(end(410), end(768)), (end(768), end(410))]);
        Cancelled {
            iso: iso as u16,
            centre,
            w: w as i16,
            along,
            ray: Ray { a, b },
        }
    }

    fn builder(&self) -> FileBuilder {
        let file = FileBuilder::new(self.iso).point(1024, self.centre, self.w);
        file.point(1024, self.centre, -self.w).sum()
    }

    /// The part of the two points alone.
    pub fn part(&self) -> Part {
        read(&self.builder().build()).expect("a part")
    }

    /// The place so many steps past the one where tick h begins, about.
    fn past(&self, h: u32, steps: i64) -> [i16; 3] {
        let Ray { mut a, b } = self.ray;
        let way = b[self.along] - a[self.along];
        a[self.along] += way * h as i32 / 1024 + way.signum() * steps as i32;
        a.map(|c| c as i16)
    }

    /// The two points and a ball near tick h, joined by the operator. A lesser and a cut
    /// are of the greater of both: with a point that holds the ray, and by a point
    /// past the tick.
    fn with_ball(&self, random: &mut SplitMix64, h: u32, operator: Kind) -> Part {
        let mut centre = self.past(h, random.between(0, 5));
        centre[(self.along + 1) % 3] += random.between(-2, 2) as i16;
        let r = random.between(1, 6) as u16;
        let w = random.between(self.iso.into(), 4096) as i16;
        let removed = random.between(1, 40);
        let file = self.builder().point(r, centre, w);
        let file = match operator {
            Kind::Lesser => file.greater().point(1024, self.past(512, 0), 4096),
            Kind::Cut => file
                .greater()
                .point(removed as u16, self.past(h, removed + 1), 50),
            _ => file,
        };
        read(&file.operator(operator).build()).expect("a part")
    }
}

/// Whether, of a few ticks up to h, that one is the first that is not empty.
fn is_first(part: &Part, ray: &Ray, h: u32) -> bool {
    let field = TickField::new(part, *ray);
    let empty = |t: &u32| {
        let bounds = field.bounds(*t, t + 1).expect("a tree");
        judge(bounds, part.iso) == Mark::Empty
    };
    !empty(&h) && (h.saturating_sub(30)..h).all(|t| empty(&t))
}

/// A part and a ray that is hit at tick h, joined by the operator.
fn hit_at(random: &mut SplitMix64, h: u32, operator: Kind) -> Scene {
    loop {
        let cancelled = Cancelled::new(random);
        let part = cancelled.with_ball(random, h, operator);
        if is_first(&part, &cancelled.ray, h) {
            return Scene::new(part, cancelled.ray);
        }
    }
}

/// One for each tick, joined by each operator in turn.
pub fn scenes() -> &'static [Scene] {
    static SCENES: OnceLock<Vec<Scene>> = OnceLock::new();
    SCENES.get_or_init(|| {
        let mut random = SplitMix64::new(202);
        let scene = |h: u32| hit_at(&mut random, h, OPERATORS[h as usize % 4]);
        (0..1024).map(scene).collect()
    })
}
