//! What hits were met, and how near they came to the figure.

use crate::promises::figure;
use std::collections::BTreeMap;
use std::ops::Range;

/// Hits by their tick, and by the classes of their rays.
pub struct Seen {
    hits: [u32; 1024],
    /// The most probes of a hit at the tick.
    most: [u32; 1024],
    pub classes: BTreeMap<String, u32>,
}

impl Seen {
    pub fn new() -> Seen {
        Seen {
            hits: [0; 1024],
            most: [0; 1024],
            classes: BTreeMap::new(),
        }
    }

    /// A hit at tick h, on a ray of these classes.
    pub fn count(&mut self, h: u32, probes: u32, classes: &[String]) {
        let tick = h as usize;
        self.hits[tick] += 1;
        self.most[tick] = self.most[tick].max(probes);
        for class in classes {
            *self.classes.entry(class.clone()).or_default() += 1;
        }
    }

    /// The fewest hits at a tick, and the most.
    pub fn hits(&self) -> [u32; 2] {
        let (fewest, most) = (self.hits.iter().min(), self.hits.iter().max());
        [fewest, most].map(|n| *n.expect("a tick"))
    }

    /// By how little a hit at one of the ticks stayed below the figure, and the first
    /// tick with such a hit.
    pub fn nearest(&self, ticks: Range<u32>) -> (u32, u32) {
        let below = ticks.map(|h| (figure(h) - self.most[h as usize], h));
        below.min().expect("a tick")
    }

    pub fn print(&self, name: &str, calls: u64) {
        let rays: u32 = self.hits.iter().sum();
        println!("{name}: {rays} rays, {calls} calls of the archive");
        println!("fewest and most hits at a tick: {:?}", self.hits());
        let nearest = [0..1, 1..1024].map(|ticks| self.nearest(ticks));
        println!("below the figure, and where: {nearest:?}");
        println!("{:?}", self.classes);
    }
}
