//! Generated requests of every call: trees of all forms and sizes, damaged
//! files, rays of all styles, budgets and rooms at their limits. What was
//! covered is counted, printed and asserted.

use crate::calls::{check, place_bounds, Host};
use crate::coverage::Coverage;
use crate::floats::changed;
use crate::requests::{budget, file, ray, room, GROUPS};
use reference::cast::accept;
use reference::field::Ray;
use reference::generate::{cancelling_or_bored, part_of_form, SplitMix64, FORMS};
use reference::part::Part;
use reference::view::in_millimetres;

/// Scenes, a file and a ray each, of each of `GROUPS`, and of parts that nearly
/// cancel or are bored.
const SCENES: [usize; 9] = [800, 700, 900, 700, 400, 200, 600, 150, 50];
const CANCELLING_OR_BORED: usize = 500;

/// All requests of a host, ten for each scene, and what they covered.
struct Run {
    random: SplitMix64,
    host: Host,
    coverage: Coverage,
}

impl Run {
    /// A whole place on the ray or at its start.
    fn place(&mut self, ray: &Ray) -> [i32; 3] {
        let middle = |i: usize| (i64::from(ray.a[i]) + i64::from(ray.b[i])) / 2;
        match self.random.one_in(2) {
            true => ray.a,
            false => [0, 1, 2].map(|i| middle(i) as i32),
        }
    }

    /// A budget for a call that needs `count` probes.
    fn budget(&mut self, count: u32) -> u32 {
        let kind = self.random.between(0, 6) as usize;
        self.coverage.count("budget", kind);
        budget(kind, count)
    }

    /// A column, and one whose buffer is too short; the probes of the first.
    fn columns(&mut self, file: &[u8], ray: &Ray) -> Option<u32> {
        let room = self.random.pick(&[128, 129, 200]);
        let answer = self.host.column(file, ray, room);
        self.coverage.column(answer);
        let short = self.random.pick(&[0, 1, 126, 127]);
        let refused = self.host.column(file, ray, short);
        self.coverage.column(refused);
        answer.probes()
    }

    /// A first hit, unlimited and with a budget; the probes of the first.
    fn first_hits(&mut self, file: &[u8], ray: &Ray) -> Option<u32> {
        let answer = self.host.first_hit(file, ray, u32::MAX);
        self.coverage.first_hit(answer);
        let budget = self.budget(answer.probes().unwrap_or(1));
        let spent = self.host.first_hit(file, ray, budget);
        self.coverage.first_hit(spent);
        answer.probes()
    }

    /// A marching cast, with a budget for certain completion and with another.
    fn marches(&mut self, file: &[u8], ray: &Ray) {
        let enough = self.random.pick(&[2052, u32::MAX]);
        let (answer, marks) = self.host.marching_cast(file, ray, enough, 1024);
        self.coverage.marching_cast(answer, &marks);
        let budget = self.budget(answer.probes().unwrap_or(1));
        let (_, room) = room(&mut self.random, 1024);
        let (answer, marks) = self.host.marching_cast(file, ray, budget, room);
        self.coverage.marching_cast(answer, &marks);
    }

    fn scene(&mut self, file: &[u8], ray: &Ray) {
        if let Ok(part) = accept(file, ray) {
            self.coverage.part(&part);
        }
        self.coverage.answered("check", check(file));
        let at = self.place(ray);
        self.coverage.answered("place", place_bounds(file, at));
        let count = self.columns(file, ray).unwrap_or(1);
        let budget = self.budget(count);
        let (_, room) = room(&mut self.random, 1024);
        let (answer, marks) = self.host.full_cast(file, ray, budget, room);
        self.coverage.full_cast(answer, &marks);
        if ray.has_no_length() && answer.probes().is_some() {
            self.coverage.count("no length", "full cast");
        }
        self.marches(file, ray);
        let count = self.first_hits(file, ray).unwrap_or(1);
        let (view, _) = changed(&mut self.random, &in_millimetres(ray));
        let budget = self.budget(count);
        let answer = self.host.viewer_first_hit(file, &view, budget);
        self.coverage.viewer(answer);
        if view.a == view.b && answer.probes().is_some() {
            self.coverage.count("no length", "viewer");
        }
    }

    fn scenes(&mut self, count: usize, part: impl Fn(&mut SplitMix64, usize) -> Part) {
        for i in 0..count {
            let part = part(&mut self.random, i);
            let file = file(&mut self.random, &part);
            let ray = ray(&mut self.random, &part);
            self.scene(&file, &ray);
        }
    }
}

#[test]
fn generated_requests() {
    let mut run = Run {
        random: SplitMix64::new(141),
        host: Host::default(),
        coverage: Coverage::default(),
    };
    for (count, (_, shape)) in SCENES.into_iter().zip(GROUPS) {
        run.scenes(count, |random, i| {
            part_of_form(random, &shape, FORMS[i % 4])
        });
    }
    run.scenes(CANCELLING_OR_BORED, |random, _| cancelling_or_bored(random));
    run.coverage.print();
    let casts = [
        "full cast",
        "marching cast",
        "first hit",
        "column",
        "viewer",
    ];
    assert_eq!(run.coverage.requests(&casts), 40_000);
    assert_eq!(run.coverage.requests(&["check", "place"]), 10_000);
    run.coverage.assert_populated();
}
