//! How often a stream's requests lie on either side of each limit of the
//! questions, by looking at their files and numbers and not at how they were
//! made.

use crate::limited::{grouped, Limited, ALL};
use crate::look::{Look, Seen};
use crate::request::{Request, CALLS};
use std::collections::{BTreeMap, BTreeSet};

/// The two sides' words, and their order below.
const SIDES: [&str; 2] = ["accepted", "refused"];

/// Requests by call: those accepted with a number at its limit, and those
/// refused for that number alone.
#[derive(Default)]
pub struct Sides([BTreeMap<Seen, [i64; CALLS]>; 2]);

impl Sides {
    /// Counts an answered request.
    pub fn count(&mut self, request: &Request) {
        let Look { right, wrong } = Look::at(request);
        assert_eq!(request.is_accepted(), wrong.is_empty());
        let (side, all_seen) = match wrong.len() {
            0 => (0, right),
            1 => (1, wrong),
            _ => return,
        };
        for seen in all_seen {
            let question = seen.0.limited().question;
            assert!(side == 0 || request.number == question);
            self.0[side].entry(seen).or_default()[usize::from(request.call)] += 1;
        }
    }

    fn by_call(&self, side: usize, seen: Seen) -> [i64; CALLS] {
        self.0[side].get(&seen).copied().unwrap_or_default()
    }

    /// The count of each side of each limit and call that asks, and their name.
    pub fn counts(&self) -> Vec<(i64, String)> {
        let all = ALL.iter().flat_map(|limited| self.counts_of(limited));
        all.collect()
    }

    fn counts_of(&self, limited: &'static Limited) -> Vec<(i64, String)> {
        let counts = sides(limited).into_iter().flat_map(|(side, seen)| {
            let counts = self.by_call(side, seen);
            let asking = (0..CALLS).filter(|&call| (limited.asks)(call as u8));
            asking.map(move |call| {
                let (_, member, value) = seen;
                let name = format!("{} ({member}) {value}", limited.name);
                (counts[call], format!("{name} {}, call {call}", SIDES[side]))
            })
        });
        counts.collect()
    }

    /// A line of the table for each kind of number.
    pub fn table(&self) -> String {
        let mut text =
            String::from("| Question | Number | Accepted | Refused |\n|---|---|---|---|\n");
        for limited in &ALL {
            let [accepted, refused] = [0, 1].map(|side| self.cell(limited, side));
            let (question, name) = (limited.question, limited.name);
            text += &format!("| {question} | {name} | {accepted} | {refused} |\n");
        }
        text
    }

    /// Each number on one side, and how many requests have it, in all calls and
    /// all of its kind.
    fn cell(&self, limited: &Limited, side: usize) -> String {
        let mut totals = BTreeMap::<i64, i64>::new();
        for (_, seen) in sides(limited).into_iter().filter(|(s, _)| *s == side) {
            *totals.entry(seen.2).or_default() += self.by_call(side, seen).iter().sum::<i64>();
        }
        let shown = |(value, count)| format!("{}: {}", limited.what.shown(value), grouped(count));
        totals.into_iter().map(shown).collect::<Vec<_>>().join("; ")
    }
}

/// The fewest requests of all that are counted. Fails, and says of what, if there
/// is none.
pub fn least(counts: impl Iterator<Item = (i64, String)>) -> Result<i64, String> {
    match counts.min().unwrap_or_default() {
        (0, name) => Err(format!("no request has {name}")),
        (least, _) => Ok(least),
    }
}

/// Both sides of each limit, for each of the kind.
fn sides(limited: &Limited) -> BTreeSet<(usize, Seen)> {
    let (what, members) = (limited.what, limited.members);
    let values = |side: usize| limited.limits.iter().map(move |limit| (side, limit[side]));
    let both = values(0).chain(values(1));
    both.flat_map(|(side, value)| (0..members).map(move |member| (side, (what, member, value))))
        .collect()
}
