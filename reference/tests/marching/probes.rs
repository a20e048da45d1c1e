//! The probes of a march that is told its rule, the right one or one with a mistake,
//! and what a cast answers that makes them.

use reference::cast::{judge, FullCast, Mark, NOT_LOOKED_AT};
use reference::field::{Ray, SpanBounds};
use reference::part::Part;
use reference::quick::TickField;

/// How a march goes on.
#[derive(Clone, Copy)]
pub struct Rule {
    /// The ticks of the first candidate.
    pub first: u32,
    /// The next candidate after an undecided one, told its length as it was cut and
    /// as it was before.
    pub after_undecided: fn(u32, u32) -> u32,
    /// The next candidate after a decided one, told its length.
    pub after_decided: fn(u32) -> u32,
    /// The next candidate after a crossing tick.
    pub after_crossing: u32,
}

pub const RIGHT: Rule = Rule {
    first: 64,
    after_undecided: |cut, _| cut / 2,
    after_decided: |length| 2 * length,
    after_crossing: 2,
};

/// A candidate that is probed.
#[derive(Clone, Copy, Debug)]
pub struct Probe {
    pub tick: u32,
    pub length: u32,
    /// The length before it was cut.
    pub uncut: u32,
    pub mark: Mark,
}

impl Probe {
    /// Whether the candidate's ticks are marked.
    pub fn settles(&self) -> bool {
        self.length == 1 || self.mark != Mark::Crossing
    }

    pub fn is_cut(&self) -> bool {
        self.length < self.uncut
    }
}

/// The probes of a march over the whole ray, told what a stretch is judged as.
pub fn probes_of(rule: &Rule, judged: impl Fn(u32, u32) -> Mark) -> Vec<Probe> {
    let mut probes = Vec::new();
    let (mut tick, mut uncut) = (0, rule.first);
    while tick < 1024 {
        let length = uncut.min(1024 - tick);
        let mark = judged(tick, tick + length);
        let probe = Probe {
            tick,
            length,
            uncut,
            mark,
        };
        probes.push(probe);
        uncut = match mark {
            Mark::Crossing if length > 1 => (rule.after_undecided)(length, uncut),
            Mark::Crossing => rule.after_crossing,
            _ => (rule.after_decided)(length),
        };
        tick += if probe.settles() { length } else { 0 };
    }
    probes
}

/// Those through a part, by the quick path.
pub fn probes(rule: &Rule, part: &Part, ray: &Ray) -> Vec<Probe> {
    let field = TickField::new(part, *ray);
    probes_of(rule, |first, after| {
        judge(field.bounds(first, after).expect("a tree"), part.iso)
    })
}

/// What a marching cast that makes these probes answers with a budget, and its
/// marks.
pub fn answer(probes: &[Probe], budget: u32) -> (FullCast, Vec<u8>) {
    let made = probes.len().min(budget as usize);
    let mut marks = vec![NOT_LOOKED_AT; 1024];
    for probe in probes[..made].iter().filter(|probe| probe.settles()) {
        let (first, after) = (probe.tick as usize, (probe.tick + probe.length) as usize);
        marks[first..after].fill(probe.mark.byte());
    }
    let cast = match probes.get(made) {
        Some(waiting) => FullCast::Spent {
            probes: made as u32,
            tick: waiting.tick,
        },
        None => FullCast::Complete {
            probes: made as u32,
        },
    };
    (cast, marks)
}
