//! A stream of requests with the reference's answers, for `robust/replay.c`:
//! those at the limits of the questions, casts of the most probes, columns at the
//! limits of the rule for their middles, first hits at the figure of their probes,
//! rays whose ends coincide or are a step apart, those with a wrong version and one
//! fault more, then N on damaged files, drawings
//! and saved records, and one on a whole file, drawing or record after each seven
//! of them.
//!
//!     cargo run --release --offline --example requests -- N SEED > STREAM
//!
//! How often each side of each limit occurs, each step of a total to its ceiling,
//! each limit of a middle, each of a first hit's figure, each way that a ray's ends
//! coincide or are a step apart and each version, is counted and printed to standard
//! error; where one does not, the program fails.
//!
//! Every number is little-endian. A request is 112 bytes, then the file, or the
//! numbers that a write is given, four bytes each, or the saved record, then the
//! bytes that the call writes:
//!
//! | At | Bytes | What |
//! |----|-------|------|
//! | 0 | 1 | the call |
//! | 1 | 1 | 1 if the file, the drawing or the saved record is damaged |
//! | 2 | 2 | 0 |
//! | 4 | 4 | the bytes of the file, of the numbers or of the saved record |
//! | 8 | 24 | the ray: A's x, y and z, then B's, as signed numbers, or as floats for the viewer; or the place's x, y and z |
//! | 32 | 4 | the budget; of a write the iso-value |
//! | 36 | 4 | the buffer's length: room for marks, a column or a part, 16 for the two bounds, 12,264 for nodes' numbers |
//! | 40 | 24 | the totals before: casts, probes, refusals |
//! | 64 | 8 | the number answered |
//! | 72 | 24 | the totals after |
//! | 96 | 4 | how many bytes the call writes |
//! | 100 | 8 | the place of a write; the bytes that the call writes begin there |
//! | 108 | 4 | the version of a write |
//!
//! The calls are 0 full cast, 1 first hit, 2 column, 3 marching cast, 4 viewer's
//! first hit; 5 to 9 the same, counted; 10 check, 11 bounds, 12 write, 13 read,
//! 14 saved record.

mod apart;
mod costs;
mod damaged;
#[path = "../../tests/common/drawings.rs"]
mod drawings;
mod drawn;
mod ends;
#[path = "../../tests/common/expected.rs"]
mod expected;
#[path = "../../tests/common/floats.rs"]
mod floats;
mod hits;
mod limited;
mod limits;
mod longest;
mod look;
mod middles;
mod orders;
mod reached;
mod request;
#[path = "../../tests/common/requests.rs"]
mod requests;
mod sides;
mod sums;
mod versions;
mod write_limits;

use apart::Apart;
use costs::Costs;
use drawn::drawn;
use ends::ends;
use hits::hits;
use longest::longest;
use middles::middles;
use orders::orders;
use reached::Reached;
use reference::generate::SplitMix64;
use request::Request;
use sides::{least, Sides};
use std::io::{self, BufWriter, Write};
use sums::Sums;
use versions::Versions;

/// Writes requests and counts them.
struct Stream<W: Write> {
    to: W,
    sides: Sides,
    reached: Reached,
    sums: Sums,
    costs: Costs,
    apart: Apart,
    versions: Versions,
    requests: u64,
}

impl<W: Write> Stream<W> {
    fn put(&mut self, request: &Request) -> io::Result<()> {
        self.requests += 1;
        self.sides.count(request);
        self.reached.count(request);
        self.sums.count(request);
        self.costs.count(request);
        self.apart.count(request);
        self.versions.count(request);
        request.write(&mut self.to)
    }

    /// How often each of what is counted occurs, with its name.
    fn counts(&self) -> Vec<(i64, String)> {
        let [sides, reached] = [self.sides.counts(), self.reached.counts()];
        let [sums, costs] = [self.sums.counts(), self.costs.counts()];
        let [apart, versions] = [self.apart.counts(), self.versions.counts()];
        [sides, reached, sums, costs, apart, versions].concat()
    }

    /// The same, taken together.
    fn tables(&self) -> String {
        let [sides, reached] = [self.sides.table(), self.reached.table()];
        let [sums, costs] = [self.sums.table(), self.costs.table()];
        let [apart, versions] = [self.apart.table(), self.versions.table()];
        [sides, reached, sums, costs, apart, versions].join("\n")
    }

    /// Every request of the stream.
    fn put_all(&mut self, random: &mut SplitMix64, damaged: u64) -> io::Result<()> {
        let first = [limits::at_limits, longest, middles, hits, ends, orders];
        let first = first.map(|made| made(random));
        let mut first = first.iter().flatten();
        first.try_for_each(|request| self.put(request))?;
        for i in 1..=damaged {
            self.put(&drawn(random, true))?;
            if i % 7 == 0 {
                self.put(&drawn(random, false))?;
            }
        }
        self.to.flush()
    }
}

fn main() -> io::Result<()> {
    let words: Vec<u64> = std::env::args()
        .skip(1)
        .map(|word| word.parse().expect("a number"))
        .collect();
    let [damaged, seed] = words[..] else {
        panic!("requests N SEED");
    };
    let mut stream = Stream {
        to: BufWriter::new(io::stdout().lock()),
        sides: Sides::default(),
        reached: Reached::default(),
        sums: Sums::default(),
        costs: Costs::default(),
        apart: Apart::default(),
        versions: Versions::default(),
        requests: 0,
    };
    stream.put_all(&mut SplitMix64::new(seed), damaged)?;
    eprint!("{}", stream.tables());
    let least = least(stream.counts().into_iter()).map_err(io::Error::other)?;
    eprintln!(
        "{} requests, {least} or more on each side of each limit, of each step of a total, at each limit of a middle, at each of a \
         first hit's figure, of each kind of ends and of each version, in each call that has it",
        stream.requests
    );
    Ok(())
}
