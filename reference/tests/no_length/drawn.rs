//! Drawn places of generated parts and of the repository's example parts: in balls, at
//! their radii and around them, and undecided ones. These are looked for beside the
//! surface, where a ray along an axis crosses it, and at drawn places of heavy points,
//! whose bounds an iso-value lies between. What was covered is counted, printed and
//! asserted.

use crate::calls::Host;
use crate::requests::{operators_and_degree, GROUPS};
use crate::scenes::Scene;
use reference::cast::{full_cast, Mark};
use reference::field::Ray;
use reference::generate::{bored, cancelling, no_length, part_of_form};
use reference::generate::{Shape, SplitMix64, FORMS};
use reference::part::{read, FileBuilder, Part, REACH};
use std::collections::BTreeMap;
use std::fs;
use std::iter::repeat_with;
use std::path::Path;

/// Parts of each of `GROUPS`.
const PARTS: [usize; 9] = [60, 60, 60, 60, 30, 10, 20, 6, 3];
/// Parts that nearly cancel, and bored ones.
const OTHERS: usize = 60;
/// Drawn places of each part, and the lines on which undecided ones are looked for.
const PLACES: usize = 8;
const LINES: usize = 30;
/// Undecided places of one part are no more than these.
const MOST_UNDECIDED: usize = 4;

/// Undecided places of heavy points.
const HEAVY: usize = 600;
const HEAVY_POINTS: Shape = Shape {
    points: (2, 7),
    reach: 400,
    radius: (300, 1024),
    weight: (-4096, 4096),
    iso: (1, 4096),
};

/// The part of an example.
fn example(name: &str) -> Part {
    let parts = Path::new(env!("CARGO_MANIFEST_DIR")).join("../examples/parts");
    let file = fs::read(parts.join(name)).expect("an example");
    read(&file).expect("accepted")
}

/// The examples, each with two undecided places.
const EXAMPLES: [(&str, [[i32; 3]; 2]); 6] = [
    ("bracket.part", [[-406, 313, 421], [276, -320, -213]]),
    ("core-cut.part", [[421, 712, -339], [472, -65, -91]]),
    ("core-sum.part", [[298, 353, -130], [239, 1, -318]]),
    ("core.part", [[-36, 121, -308], [131, -652, 273]]),
    ("k.part", [[362, 5, 2], [-255, 0, 257]]),
    ("pad.part", [[312, -405, -206], [312, 155, -206]]),
];

/// The whole places beside the surface on a line of 1,024 steps along an axis: both ends
/// of its crossing ticks.
fn beside_the_surface(random: &mut SplitMix64, part: &Part) -> Vec<[i32; 3]> {
    let mut a = no_length(random, part).a;
    let axis = random.between(0, 2) as usize;
    a[axis] = (a[axis] - 512).clamp(-REACH, REACH - 1024);
    let at = |steps: usize| {
        let mut place = a;
        place[axis] += steps as i32;
        place
    };
    let mut marks = [0; 1024];
    let (file, ray) = (FileBuilder::from(part).build(), Ray { a, b: at(1024) });
    full_cast(&file, &ray, 2047, &mut marks);
    let crossing = (0..1024).filter(|&tick| marks[tick] == 1);
    crossing.flat_map(|tick| [at(tick), at(tick + 1)]).collect()
}

/// Undecided places of a part, as many as are found on the lines.
fn undecided(random: &mut SplitMix64, part: &Part) -> Vec<Scene> {
    let mut found: Vec<Scene> = Vec::new();
    for _ in 0..LINES {
        let scenes = beside_the_surface(random, part).into_iter().take(12);
        let scenes = scenes.map(|at| Scene::new(part.clone(), at));
        found.extend(scenes.filter(|s| s.mark == Mark::Crossing).take(1));
        found.dedup_by_key(|scene| scene.ray.a);
    }
    found.truncate(MOST_UNDECIDED);
    found
}

/// A part of heavy points and a place of it, whose bounds the iso-value lies between; if
/// there is one for the place drawn.
fn heavy(random: &mut SplitMix64) -> Option<Scene> {
    let form = random.pick(&FORMS);
    let part = part_of_form(random, &HEAVY_POINTS, form);
    let at = no_length(random, &part).a;
    let high = Scene::new(part.clone(), at).bounds.high;
    let iso = u16::try_from(high >> 32).ok()?;
    let scene = Scene::new(Part { iso, ..part }, at);
    let accepted = (1..=4096).contains(&iso);
    (accepted && scene.mark == Mark::Crossing).then_some(scene)
}

/// So many of these, one of at most a hundred places drawn for each.
fn all_heavy(random: &mut SplitMix64, count: usize) -> Vec<Scene> {
    let tried = repeat_with(|| heavy(random)).take(100 * count);
    let found: Vec<Scene> = tried.flatten().take(count).collect();
    assert_eq!(found.len(), count);
    found
}

/// Drawn places of a part, and undecided ones.
fn scenes(random: &mut SplitMix64, part: &Part) -> Vec<Scene> {
    let mut place = || Scene::new(part.clone(), no_length(random, part).a);
    let mut scenes: Vec<Scene> = (0..PLACES).map(|_| place()).collect();
    scenes.extend(undecided(random, part));
    scenes
}

/// The drawn parts, each with the name of its kind.
fn parts(random: &mut SplitMix64) -> Vec<(&'static str, Part)> {
    let mut parts = Vec::new();
    for (count, (_, shape)) in PARTS.into_iter().zip(GROUPS) {
        let drawn = (0..count).map(|i| part_of_form(random, &shape, FORMS[i % 4]));
        parts.extend(drawn.map(|part| ("drawn", part)));
    }
    parts.extend((0..OTHERS).map(|_| ("cancelling", cancelling(random))));
    parts.extend((0..OTHERS).map(|_| ("bored", bored(random))));
    parts
}

/// The places of all parts, each with the name of the part's kind.
fn all(random: &mut SplitMix64) -> Vec<(&'static str, Scene)> {
    let mut all = Vec::new();
    for (kind, part) in parts(random) {
        all.extend(scenes(random, &part).into_iter().map(|scene| (kind, scene)));
    }
    for (name, undecided) in EXAMPLES {
        let part = example(name);
        let drawn = (0..PLACES).map(|_| no_length(random, &part).a);
        let places = drawn.chain(undecided);
        all.extend(places.map(|at| ("example", Scene::new(part.clone(), at))));
    }
    let undecided = all_heavy(random, HEAVY).into_iter();
    all.extend(undecided.map(|scene| ("heavy", scene)));
    all
}

/// Places by their marks, and undecided ones by their bits; the same by the kinds of
/// parts.
#[derive(Debug, Default)]
struct Seen {
    marks: [u32; 3],
    bits: [u32; 2],
    classes: BTreeMap<String, [u32; 3]>,
}

impl Seen {
    fn count(&mut self, scene: &Scene, kind: &str) {
        let mark = usize::from(scene.mark.byte());
        self.marks[mark] += 1;
        if scene.mark == Mark::Crossing {
            self.bits[usize::from(scene.solid())] += 1;
        }
        let mut classes = operators_and_degree(&scene.part);
        classes.push(kind.to_string());
        if scene.part.nodes.iter().any(|node| node.w < 0) {
            classes.push("negative weight".to_string());
        }
        for class in classes {
            self.classes.entry(class).or_default()[mark] += 1;
        }
    }

    fn assert_populated(&self) {
        let all = |counts: &[u32], least: u32| counts.iter().all(|&n| n >= least);
        let of = |class: &str, least: u32| all(&self.classes[class], least);
        assert!(all(&self.marks, 600) && all(&self.bits, 100), "{self:?}");
        let operators = ["Sum", "Greater", "Lesser", "Cut", "negative weight"];
        let degrees = ["Four", "Six"];
        let mut often = operators.iter().chain(&degrees);
        assert!(often.all(|class| of(class, 80)), "{self:?}");
        let kinds = ["Point", "drawn", "cancelling", "bored", "example"];
        assert!(kinds.iter().all(|class| of(class, 10)), "{self:?}");
        assert_eq!(self.classes.len(), 5 + 2 + 5 + 1, "{self:?}");
    }
}

/// Drawn undecided places of heavy points.
pub fn some_undecided(seed: u64, count: usize) -> Vec<Scene> {
    all_heavy(&mut SplitMix64::new(seed), count)
}

#[test]
fn drawn_places() {
    let mut random = SplitMix64::new(221);
    let mut host = Host::default();
    let mut seen = Seen::default();
    let mut afresh = 0;
    for (i, (kind, scene)) in all(&mut random).into_iter().enumerate() {
        let budget = random.between(0, 2051) as u32;
        scene.check(&mut host, &[0, 1, 10, 11, budget]);
        seen.count(&scene, kind);
        let undecided = scene.mark == Mark::Crossing;
        if !undecided || i % 8 == 0 && scene.part.nodes.len() < 14 {
            scene.check_afresh(&mut host);
            afresh += u32::from(undecided);
        }
    }
    println!("{seen:?} {} calls, {afresh} afresh", host.calls());
    assert!(afresh >= 30, "{afresh}");
    seen.assert_populated();
}
