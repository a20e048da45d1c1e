//! What marching casts covered.

use crate::cuts::Cuts;
use crate::scenes::Scene;
use reference::cast::FullCast;
use std::cmp::Ordering;

/// How many kinds of budgets there are.
pub const BUDGETS: usize = 8;

#[derive(Debug, Default)]
pub struct Coverage {
    pub requests: u32,
    /// By refusal number.
    pub refused: [u32; 15],
    pub complete: u32,
    pub spent: u32,
    /// Casts with each mark among theirs.
    pub marks: [u32; 4],
    /// Casts not refused by the kind of their budget.
    pub budgets: [u32; BUDGETS],
    /// Casts by the kind of their room.
    pub rooms: [u32; 4],
    /// Accepted rays by the march's probes: 5, to 19, to 199, more.
    pub probes: [u32; 4],
    /// Accepted rays on which the march makes fewer probes than the full cast, as
    /// many, and more.
    pub against_halving: [u32; 3],
    /// Accepted rays of no length.
    pub no_length: u32,
    pub cuts: Cuts,
}

impl Coverage {
    /// A cast with a budget of a kind, and what its buffer has afterwards.
    pub fn cast(&mut self, answer: FullCast, budget: usize, buffer: &[u8]) {
        self.requests += 1;
        match answer {
            FullCast::Refused(number) => return self.refused[number as usize] += 1,
            FullCast::Complete { .. } => self.complete += 1,
            FullCast::Spent { .. } => self.spent += 1,
        }
        self.budgets[budget] += 1;
        for (mark, count) in (0..).zip(&mut self.marks) {
            *count += u32::from(buffer.contains(&mark));
        }
    }

    /// An accepted ray, the march's probes and the full cast's.
    pub fn ray(&mut self, scene: &Scene, march: u32, halving: u32) {
        let size = [6, 20, 200].iter().filter(|&&n| march >= n).count();
        self.probes[size] += 1;
        let place = match march.cmp(&halving) {
            Ordering::Less => 0,
            Ordering::Equal => 1,
            Ordering::Greater => 2,
        };
        self.against_halving[place] += 1;
        self.no_length += u32::from(scene.ray.has_no_length());
        self.cuts.count(scene);
    }
}
