//! Every budget up to a few past the most probes.

use crate::calls::{Answer, Call, Host};
use crate::drawn::some_undecided;
use crate::guards::GUARD;
use crate::listed::k;
use crate::scenes::{OnePlace, Scene};
use reference::cast::Mark;
use reference::part::read;

const MOST: u32 = 2060;

/// Where each stretch begins, in the order in which an undecided one of so many ticks
/// and all its halves are probed.
fn halving(first: u32, ticks: u32) -> Vec<u32> {
    let half = ticks / 2;
    let halves = match half {
        0 => Vec::new(),
        _ => [halving(first, half), halving(first + half, half)].concat(),
    };
    [vec![first], halves].concat()
}

/// Where each candidate of a march begins, if every tick is crossing: seven times at
/// tick 0, twice at each other and once at the last.
fn march() -> Vec<u32> {
    let twice = (1..1023).flat_map(|tick| [tick; 2]);
    [0; 7].into_iter().chain(twice).chain([1023]).collect()
}

/// Where each stretch begins that a call probes.
fn probed(call: Call, mark: Mark) -> Vec<u32> {
    match (call, mark) {
        (Call::FullCast, Mark::Crossing) => halving(0, 1024),
        (Call::MarchingCast, Mark::Crossing) => march(),
        (Call::MarchingCast, _) => vec![0, 64, 192, 448, 960],
        (_, Mark::Crossing) => vec![0; 11],
        _ => vec![0],
    }
}

/// Where a hit is or the ray is clear: k.
fn found(mark: Mark) -> u64 {
    match mark {
        Mark::Empty => 3,
        Mark::Crossing => 1,
        Mark::Inside => 2,
    }
}

/// A cast's marks before the tick reached are the place's, and 3 from it on.
fn assert_marks(answer: &Answer, mark: Mark, reached: Option<u32>) {
    let marks = &answer.bytes[GUARD..GUARD + 1024];
    let (looked_at, rest) = marks.split_at(reached.unwrap_or(1024) as usize);
    assert!(looked_at.iter().all(|&m| m == mark.byte()));
    assert!(rest.iter().all(|&m| m == 3));
}

fn assert_every_budget(host: &mut Host, scene: &Scene, call: Call) {
    let probed = probed(call, scene.mark);
    for budget in (0..=MOST).chain([u32::MAX]) {
        let answer = host.compare::<OnePlace>(call, scene.request(), budget, call.need());
        let reached = probed.get(budget as usize).copied();
        let probes = u64::from(budget).min(probed.len() as u64);
        let number = match (call, reached) {
            (Call::FullCast | Call::MarchingCast, _) => {
                assert_marks(&answer, scene.mark, reached);
                65_536 * (1 + u64::from(reached.is_some()))
            }
            (_, Some(tick)) => (4 << 32) + 65_536 * u64::from(tick),
            (_, None) => found(scene.mark) << 32,
        };
        assert_eq!(answer.number, number + probes, "{call:?} {budget}");
    }
}

/// File K inside, outside and undecided, and drawn places that are undecided.
#[test]
fn every_budget() {
    let k = read(&k().build()).expect("accepted");
    let places = [[0; 3], [256, 256, 0], [512, 0, 0], [362, 5, 2]];
    let mut scenes = places.map(|at| Scene::new(k.clone(), at)).to_vec();
    scenes.extend(some_undecided(222, 2));
    let mut host = Host::default();
    for scene in &scenes {
        for call in [
            Call::FullCast,
            Call::MarchingCast,
            Call::FirstHit,
            Call::Viewer,
        ] {
            assert_every_budget(&mut host, scene, call);
        }
    }
    println!("{} places, {} calls", scenes.len(), host.calls());
    assert_eq!(host.calls(), 2 * 6 * 4 * 2062);
}
