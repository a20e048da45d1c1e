//! The C entries of the archive on generated requests: trees of all forms and
//! sizes, damaged files, rays of all styles, budgets and rooms at their
//! limits. What was covered is counted, printed and asserted.

#[path = "common/host.rs"]
mod host;
#[path = "common/requests.rs"]
mod requests;

use reference::cast::{self, Column, FirstHit, FullCast, Mark};
use reference::field::{Bounds, Ray};
use reference::generate::{self, cancelling_or_bored, part_of_form};
use reference::generate::{Form, SplitMix64, Style, FORMS};
use reference::part::{FileBuilder, Part};
use requests::{file, place, ray, GROUPS};

/// What the requests covered.
#[derive(Debug, Default)]
struct Coverage {
    requests: u32,
    /// By refusal number.
    refused: [u32; 15],
    complete: u32,
    spent: u32,
    crossing_hits: u32,
    inside_hits: u32,
    clear: u32,
    hits_spent: u32,
    columns: u32,
    checked: u32,
    /// Places with equal bounds other than 0, with different ones, and outside
    /// every point.
    places: [u32; 3],
    /// Requests not refused by their place in `budget`.
    budgets: [u32; 7],
    /// Requests by their place in `room`.
    rooms: [u32; 4],
    /// Complete full casts by probes: 1, to 19, to 199, more.
    probes: [u32; 4],
    /// Accepted files of 511 records.
    most_records: u32,
    /// Accepted files by their version.
    versions: [u32; 2],
    /// Columns on rays of no length.
    no_length: u32,
}

impl Coverage {
    fn full_cast(&mut self, answer: FullCast, budget: usize) {
        self.requests += 1;
        match answer {
            FullCast::Refused(number) => return self.refused[number as usize] += 1,
            FullCast::Complete { probes } => {
                self.complete += 1;
                let size = [2, 20, 200].iter().filter(|&&n| probes >= n).count();
                self.probes[size] += 1;
            }
            FullCast::Spent { .. } => self.spent += 1,
        }
        self.budgets[budget] += 1;
    }

    fn first_hit(&mut self, answer: FirstHit, budget: usize) {
        self.requests += 1;
        match answer {
            FirstHit::Refused(number) => return self.refused[number as usize] += 1,
            FirstHit::Hit {
                mark: Mark::Inside, ..
            } => self.inside_hits += 1,
            FirstHit::Hit { .. } => self.crossing_hits += 1,
            FirstHit::Clear { .. } => self.clear += 1,
            FirstHit::Spent { .. } => self.hits_spent += 1,
        }
        self.budgets[budget] += 1;
    }

    fn column(&mut self, answer: Column) {
        self.requests += 1;
        match answer {
            Column::Refused(number) => self.refused[number as usize] += 1,
            Column::Done { .. } => self.columns += 1,
        }
    }

    fn check(&mut self, file: &[u8]) {
        self.requests += 1;
        match host::check(file) {
            Err(number) => self.refused[number as usize] += 1,
            Ok((nodes, _)) => {
                self.checked += 1;
                self.most_records += u32::from(nodes == 511);
                let of_version = usize::from(file[file.len() - 10] == 2);
                self.versions[of_version] += 1;
            }
        }
    }

    fn place(&mut self, answer: Result<Bounds, u32>) {
        self.requests += 1;
        match answer {
            Err(number) => self.refused[number as usize] += 1,
            Ok(Bounds { low: 0, high: 0 }) => self.places[2] += 1,
            Ok(Bounds { low, high }) => self.places[usize::from(low < high)] += 1,
        }
    }

    /// Room for `need` bytes.
    fn room(&mut self, random: &mut SplitMix64, need: usize) -> usize {
        let (kind, room) = requests::room(random, need);
        self.rooms[kind] += 1;
        room
    }

    /// No class of requests is rare.
    fn assert_populated(&self) {
        let all = |classes: &[u32], least: u32| classes.iter().all(|&n| n >= least);
        assert_eq!(self.requests, 137_900);
        assert!(all(&self.refused[1..=12], 400) && self.refused[14] >= 400);
        assert_eq!(self.refused[13], 0);
        assert!(self.no_length >= 400);
        assert!(all(&[self.complete, self.spent, self.columns], 6_000));
        assert!(all(&[self.crossing_hits, self.inside_hits], 2_000));
        assert!(all(&[self.clear, self.hits_spent], 6_000));
        assert!(all(&self.places, 300) && self.checked >= 6_000);
        assert!(all(&self.versions, 3_000));
        assert!(all(&self.budgets, 5_000) && all(&self.rooms, 2_500));
        assert!(all(&self.probes, 200) && self.most_records >= 200);
    }
}

/// A file, a ray, a place, and the probes that a full cast and a first hit need.
struct Scene {
    file: Vec<u8>,
    ray: Ray,
    place: [i32; 3],
    cast_count: u32,
    hit_count: u32,
}

impl Scene {
    fn new(file: Vec<u8>, ray: Ray, place: [i32; 3]) -> Scene {
        let cast = cast::column(&file, &ray, &mut [0; 128]);
        let hit = cast::first_hit(&file, &ray, u32::MAX);
        Scene {
            file,
            ray,
            place,
            cast_count: cast.probes().unwrap_or(1),
            hit_count: hit.probes().unwrap_or(1),
        }
    }

    /// A check of the file, the bounds at the place, two full casts, two first
    /// hits and a column.
    fn compare(&self, random: &mut SplitMix64, coverage: &mut Coverage) {
        coverage.check(&self.file);
        coverage.place(host::place_bounds(&self.file, self.place));
        for _ in 0..2 {
            let kind = random.between(0, 6) as usize;
            let budget = requests::budget(kind, self.cast_count);
            let room = coverage.room(random, 1024);
            let answer = host::full_cast(&self.file, &self.ray, budget, room);
            coverage.full_cast(answer, kind);
            let kind = random.between(0, 6) as usize;
            let budget = requests::budget(kind, self.hit_count);
            let answer = host::first_hit(&self.file, &self.ray, budget);
            coverage.first_hit(answer, kind);
        }
        let room = coverage.room(random, 128);
        let answer = host::column(&self.file, &self.ray, room);
        let no_length = self.ray.has_no_length() && answer.probes().is_some();
        coverage.no_length += u32::from(no_length);
        coverage.column(answer);
    }
}

/// Requests on `scenes` parts.
fn compare_all(
    random: &mut SplitMix64,
    coverage: &mut Coverage,
    scenes: usize,
    part: impl Fn(&mut SplitMix64, usize) -> Part,
) {
    for i in 0..scenes {
        let part = part(random, i);
        let file = file(random, &part);
        let ray = ray(random, &part);
        let place = place(random, &part);
        Scene::new(file, ray, place).compare(random, coverage);
    }
}

#[test]
fn all_kinds() {
    let mut random = SplitMix64::new(101);
    let mut coverage = Coverage::default();
    for (scenes, shape) in GROUPS {
        let part = |random: &mut SplitMix64, i| part_of_form(random, &shape, FORMS[i % 4]);
        compare_all(&mut random, &mut coverage, scenes, part);
    }
    compare_all(&mut random, &mut coverage, 4_000, |r, _| {
        cancelling_or_bored(r)
    });
    println!("{coverage:#?}");
    coverage.assert_populated();
}

#[test]
fn cut_files() {
    let mut random = SplitMix64::new(102);
    let mut coverage = Coverage::default();
    for (_, shape) in &GROUPS[..4] {
        let part = part_of_form(&mut random, shape, Form::Mixed);
        let file = FileBuilder::from(&part).leading(&[1; 30]).build();
        let ray = generate::ray(&mut random, &part, Style::Centre);
        let place = place(&mut random, &part);
        for length in 0..=file.len() {
            let start = file[..length].to_vec();
            Scene::new(start, ray, place).compare(&mut random, &mut coverage);
            let end = file[file.len() - length..].to_vec();
            Scene::new(end, ray, place).compare(&mut random, &mut coverage);
        }
    }
    println!("{coverage:#?}");
    assert!(coverage.refused[1] > 200 && coverage.columns > 50);
}
