//! Mistakes in what a ray of no length is answered. The archive's answers at the listed
//! places and at drawn undecided ones, with a few budgets, find each.

use crate::calls::{Answer, Call, CALLS};
use crate::drawn::some_undecided;
use crate::guards::{in_guards, GUARD};
use crate::listed::listed;
use crate::scenes::{OnePlace, Scene};
use reference::cast::Mark;
use reference::field::{place_bounds, tick_bounds, whole_place};
use reference::field::{Bounds, Ray, SpanBounds};
use reference::part::{Node, Part};
use reference::totals::Totals;

const BUDGETS: [u32; 9] = [0, 1, 4, 10, 11, 1000, 2046, 2052, u32::MAX];

/// A call, its place and its budget: the answer, from zeroed totals.
type Mistake = fn(Call, &Scene, u32) -> Answer;

fn by<F: SpanBounds>(call: Call, scene: &Scene, budget: u32) -> Answer {
    let (file, ray) = scene.request();
    call.by::<F>(file, ray, budget, call.need(), Totals::default())
}

fn right(call: Call, scene: &Scene, budget: u32) -> Answer {
    by::<OnePlace>(call, scene, budget)
}

fn refused(call: Call, number: u64) -> Answer {
    Answer {
        number,
        bytes: in_guards(call.need(), |_| ()).1,
        totals: Totals::default().after(None),
    }
}

/// The right answer with its bytes changed, told its marks or its column.
fn with_bytes(call: Call, scene: &Scene, budget: u32, change: fn(&mut [u8])) -> Answer {
    let mut answer = right(call, scene, budget);
    change(&mut answer.bytes[GUARD..GUARD + call.need()]);
    answer
}

/// Bounds that another rule gives for the place, for every span and middle.
macro_rules! mistaken_bounds {
    ($name:ident, $rule:expr) => {
        struct $name(Bounds);

        impl SpanBounds for $name {
            fn new(part: &Part, ray: Ray) -> $name {
                let rule: fn(&Part, [i32; 3]) -> Bounds = $rule;
                $name(rule(part, ray.a))
            }

            fn bounds(&self, _: u32, _: u32) -> Option<Bounds> {
                Some(self.0)
            }

            fn middle(&self, _: u32) -> Option<Bounds> {
                Some(self.0)
            }
        }
    };
}

fn at(part: &Part, place: [i32; 3]) -> Bounds {
    place_bounds(part, &whole_place(place)).expect("a tree")
}

mistaken_bounds!(NoBounds, |_, _| Bounds { low: 0, high: 0 });
mistaken_bounds!(LowAlone, |part, place| {
    let Bounds { low, .. } = at(part, place);
    Bounds { low, high: low }
});
mistaken_bounds!(HighAlone, |part, place| {
    let Bounds { high, .. } = at(part, place);
    Bounds { low: high, high }
});
mistaken_bounds!(AboveIso, |part, place| {
    let Bounds { low, high } = at(part, place);
    Bounds { low: low - 1, high }
});
// no point is nearer than its radius to a foot that there is not
mistaken_bounds!(FootBeyond, |part, place| {
    let far = |node: &Node| Node { w: 0, ..*node };
    let nodes = part.nodes.iter().map(far).collect();
    at(&Part { nodes, ..*part }, place)
});
// the foot is a point's centre: the greatest u is 1; of a part of one point
mistaken_bounds!(FootAtCentre, |part, place| match part.nodes[..] {
    [Node { x, y, z, .. }] => {
        let ray = Ray {
            a: place,
            b: [x, y, z].map(i32::from),
        };
        tick_bounds(part, &ray, 0, 1024).expect("a tree")
    }
    _ => at(part, place),
});

/// The right answer with other probes than the ones made.
fn with_probes(answer: Answer, probes: impl Fn(u64) -> u64) -> Answer {
    let made = answer.number & 0xffff;
    let said = probes(made);
    Answer {
        number: answer.number - made + said,
        totals: Totals::default().after(Some(said as u32)),
        ..answer
    }
}

/// The right answers, and mistaken ones.
const MISTAKES: [(&str, Mistake); 20] = [
    ("none", right),
    ("13 asked", |call, _, _| refused(call, 13)),
    (
        "13 asked by the viewer alone",
        |call, scene, budget| match call {
            Call::Viewer => refused(call, 13),
            _ => right(call, scene, budget),
        },
    ),
    ("counted as a refusal", |call, scene, budget| Answer {
        totals: Totals::default().after(None),
        ..right(call, scene, budget)
    }),
    ("every tick empty", by::<NoBounds>),
    ("the low alone", by::<LowAlone>),
    ("the high alone", by::<HighAlone>),
    ("inside only above iso", by::<AboveIso>),
    ("a foot beyond every radius", by::<FootBeyond>),
    ("a foot at the centre", by::<FootAtCentre>),
    ("one tick looked at", |call, scene, budget| {
        with_bytes(call, scene, budget, |bytes| match bytes {
            [_, rest @ ..] if rest.len() == 1023 => rest.fill(3),
            _ => {}
        })
    }),
    ("ticks after the first are empty", |call, scene, budget| {
        with_bytes(call, scene, budget, |bytes| match bytes {
            [_, rest @ ..] if rest.len() == 1023 => {
                let looked_at = rest.iter_mut().filter(|mark| **mark != 3);
                looked_at.for_each(|mark| *mark = 0);
            }
            _ => {}
        })
    }),
    (
        "bits after the first are 0",
        |call, scene, budget| match call {
            Call::Column => with_bytes(call, scene, budget, |bits| {
                bits[0] &= 1;
                bits[1..].fill(0);
            }),
            _ => right(call, scene, budget),
        },
    ),
    ("marks past the tick reached", |call, scene, budget| {
        with_bytes(call, scene, budget, |marks| {
            let first = marks.first().copied().unwrap_or(3);
            let spent = marks.iter_mut().filter(|mark| **mark == 3);
            spent.for_each(|mark| *mark = first % 3);
        })
    }),
    ("1 probe always", |call, scene, budget| {
        with_probes(right(call, scene, budget), |made| made.min(1))
    }),
    ("a hit costs 1 probe", |call, scene, budget| match call {
        Call::FirstHit | Call::Viewer => {
            with_probes(right(call, scene, budget), |made| made.min(1))
        }
        _ => right(call, scene, budget),
    }),
    ("a march that halves", |call, scene, budget| match call {
        Call::MarchingCast => right(Call::FullCast, scene, budget),
        _ => right(call, scene, budget),
    }),
    ("bits 1 where crossing", |call, scene, budget| {
        match (call, scene.mark) {
            (Call::Column, Mark::Crossing) => {
                with_bytes(call, scene, budget, |bits| bits.fill(0xff))
            }
            _ => right(call, scene, budget),
        }
    }),
    ("bits 0 where crossing", |call, scene, budget| {
        match (call, scene.mark) {
            (Call::Column, Mark::Crossing) => with_bytes(call, scene, budget, |bits| bits.fill(0)),
            _ => right(call, scene, budget),
        }
    }),
    ("bits 1 only above twice iso", |call, scene, budget| {
        let Bounds { low, high } = scene.bounds;
        let twice_iso = low + high == 2 * i64::from(scene.part.iso) << 32;
        match (call, scene.mark) {
            (Call::Column, Mark::Crossing) if twice_iso => {
                with_bytes(call, scene, budget, |bits| bits.fill(0))
            }
            _ => right(call, scene, budget),
        }
    }),
];

/// Whether the archive's answers at a place find the mistake.
fn finds(mistake: Mistake, scene: &Scene, answers: &[(Call, u32, Answer)]) -> bool {
    let mut answers = answers.iter();
    answers.any(|(call, budget, answer)| mistake(*call, scene, *budget) != *answer)
}

/// The archive's answers at a place.
fn answers(scene: &Scene) -> Vec<(Call, u32, Answer)> {
    let (file, ray) = scene.request();
    let each = CALLS
        .into_iter()
        .flat_map(|call| BUDGETS.map(|b| (call, b)));
    let answered = each.map(|(call, budget)| {
        let answer = call.of_archive(file, ray, budget, call.need(), Totals::default());
        (call, budget, answer)
    });
    answered.collect()
}

#[test]
fn places_find_each_mistake() {
    let mut scenes = listed();
    scenes.extend(some_undecided(223, 40));
    let mut found = MISTAKES.map(|(name, _)| (name, 0));
    for scene in &scenes {
        let answers = answers(scene);
        for ((_, count), (_, mistake)) in found.iter_mut().zip(MISTAKES) {
            *count += usize::from(finds(mistake, scene, &answers));
        }
    }
    println!("{found:#?} of {}", scenes.len());
    assert_eq!(found[0].1, 0);
    assert!(found[1..].iter().all(|&(_, count)| count >= 5), "{found:?}");
    // every place finds these
    assert!([1, 2, 3].iter().all(|&i| found[i].1 == scenes.len()));
}
