//! Mistakes in the march and in what it answers. The rays and budgets that the
//! archive is compared on find each.

use crate::cuts::UNCUT_HALVED;
use crate::probes::{answer, probes, Probe, Rule, RIGHT};
use crate::scenes::{budgets, drawn, listed, Scene};
use reference::cast::{column, FullCast};
use reference::march::marching_cast;

/// The right rule, and mistaken ones.
const RULES: [(&str, Rule); 6] = [
    ("none", RIGHT),
    ("the uncut length halved", UNCUT_HALVED),
    (
        "rounded up",
        Rule {
            after_undecided: |cut, _| cut.div_ceil(2),
            ..RIGHT
        },
    ),
    (
        "one tick after a crossing one",
        Rule {
            after_crossing: 1,
            ..RIGHT
        },
    ),
    (
        "a first candidate of 128",
        Rule {
            first: 128,
            ..RIGHT
        },
    ),
    (
        "the length kept after a decided candidate",
        Rule {
            after_decided: |length| length,
            ..RIGHT
        },
    ),
];

/// An answer and its marks, told the march's probes, the full cast's count and the
/// budget.
type Answer = fn(&[Probe], u32, u32) -> (FullCast, Vec<u8>);

/// The answer with another number of probes.
fn with_probes((cast, marks): (FullCast, Vec<u8>), probes: u32) -> (FullCast, Vec<u8>) {
    let cast = match cast {
        FullCast::Spent { tick, .. } => FullCast::Spent { probes, tick },
        _ => FullCast::Complete { probes },
    };
    (cast, marks)
}

/// The right answer, and mistaken ones.
const ANSWERS: [(&str, Answer); 7] = [
    ("none", |march, _, budget| answer(march, budget)),
    ("marks past the tick reached", |march, _, budget| {
        let (cast, mut marks) = answer(march, budget);
        if let Some(waiting) = march.get(budget as usize) {
            let first = waiting.tick as usize;
            marks[first..first + waiting.length as usize].fill(waiting.mark.byte());
        }
        (cast, marks)
    }),
    ("ticks not looked at are empty", |march, _, budget| {
        let (cast, marks) = answer(march, budget);
        let empty = |mark| if mark == 3 { 0 } else { mark };
        (cast, marks.into_iter().map(empty).collect())
    }),
    (
        "the full cast's count reported",
        |march, halving, budget| with_probes(answer(march, budget), halving.min(budget)),
    ),
    (
        "spent by the full cast's count",
        |march, halving, budget| {
            let (cast, marks) = answer(march, budget);
            let probes = halving.min(budget);
            let spent = FullCast::Spent { probes, tick: 1024 };
            (if budget < halving { spent } else { cast }, marks)
        },
    ),
    (
        "the budget before the end of the ray",
        |march, _, budget| {
            let (cast, marks) = answer(march, budget);
            let spent = FullCast::Spent {
                probes: budget,
                tick: 1024,
            };
            let all = march.len() == budget as usize;
            (if all { spent } else { cast }, marks)
        },
    ),
    ("counted from one", |march, _, budget| {
        let made = answer(march, budget.saturating_sub(1));
        let probes = 1 + made.0.probes().expect("an accepted ray");
        with_probes(made, probes)
    }),
];

/// What the C host gets.
type Got = (u32, Vec<u8>);

fn got((cast, marks): (FullCast, Vec<u8>)) -> Got {
    (cast.number(), marks)
}

/// A scene, and what the C host gets with each of its budgets.
struct Tried {
    scene: Scene,
    halving: u32,
    right: Vec<(u32, Got)>,
}

impl Tried {
    fn new(scene: Scene) -> Tried {
        let Scene { file, ray, .. } = &scene;
        let cast = |budget| {
            let mut marks = vec![9; 1024];
            (marching_cast(file, ray, budget, &mut marks), marks)
        };
        let count = cast(u32::MAX).0.probes().expect("an accepted ray");
        let halving = column(file, ray, &mut [0; 128]).probes();
        Tried {
            right: budgets(count).map(|b| (b, got(cast(b)))).collect(),
            halving: halving.expect("an accepted ray"),
            scene,
        }
    }

    /// Whether another cast is found out with some budget.
    fn finds(&self, other: impl Fn(u32) -> (FullCast, Vec<u8>)) -> bool {
        let mut tried = self.right.iter();
        tried.any(|(budget, right)| got(other(*budget)) != *right)
    }
}

fn tried() -> impl Iterator<Item = Tried> {
    listed().into_iter().chain(drawn()).map(Tried::new)
}

/// On how many rays each is found; the first, which is right, on none.
fn assert_found(found: &[(&str, u32)]) {
    println!("{found:#?}");
    assert_eq!(found[0].1, 0);
    assert!(
        found[1..].iter().all(|&(_, count)| count >= 40),
        "{found:?}"
    );
}

/// A mistaken rule changes counts and what is reached with a budget; it never
/// changes the marks of a cast that is not spent.
#[test]
fn the_rays_find_each_mistaken_rule() {
    let mut found = RULES.map(|(name, _)| (name, 0));
    for tried in tried() {
        let Scene { part, ray, .. } = &tried.scene;
        let (_, right) = answer(&probes(&RIGHT, part, ray), u32::MAX);
        for (i, (name, rule)) in RULES.iter().enumerate() {
            let march = probes(rule, part, ray);
            found[i].1 += u32::from(tried.finds(|budget| answer(&march, budget)));
            assert_eq!(answer(&march, u32::MAX).1, right, "{name} {ray:?}");
        }
    }
    assert_found(&found);
}

#[test]
fn the_rays_find_each_mistaken_answer() {
    let mut found = ANSWERS.map(|(name, _)| (name, 0));
    for tried in tried() {
        let march = probes(&RIGHT, &tried.scene.part, &tried.scene.ray);
        for (i, (_, mistaken)) in ANSWERS.iter().enumerate() {
            let other = |budget| mistaken(&march, tried.halving, budget);
            found[i].1 += u32::from(tried.finds(other));
        }
    }
    assert_found(&found);
}
