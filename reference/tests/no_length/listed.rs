//! Places worked out by hand.

use crate::calls::Host;
use crate::scenes::Scene;
use reference::cast::Mark;
use reference::field::Bounds;
use reference::part::{read, FileBuilder};

/// A place, its mark, whether its ticks are solid, and its bounds.
type Row = ([i32; 3], Mark, bool, i64, i64);

const ISO: i64 = 1 << 32;
/// 4 times the squares of 32767 and 32769; that of 32768 is `ISO`.
const BELOW: i64 = 4_294_705_156;
const ABOVE: i64 = 4_295_229_444;

use Mark::{Crossing, Empty, Inside};

/// File K. 65536 u is 65536 less a quarter of the squared distance: 32768, where the
/// field is iso, at a squared distance of 131072, and between 32767 and 32768 at 131073
/// to 131075. Both bounds are 0 from the radius on.
const IN_K: [Row; 14] = [
    ([0, 0, 0], Inside, true, 4 * ISO, 4 * ISO),
    ([5, 6, 7], Inside, true, 17_165_192_256, 17_165_716_324),
    ([362, 0, 0], Inside, true, 4_296_802_500, 4_296_802_500),
    ([-362, 1, 5], Inside, true, ISO, ABOVE),
    ([256, 256, 0], Inside, true, ISO, ISO),
    ([0, -256, 256], Inside, true, ISO, ISO),
    ([362, 5, 2], Crossing, false, BELOW, ISO),
    ([-2, -362, 5], Crossing, false, BELOW, ISO),
    ([257, 0, -255], Crossing, false, BELOW, ISO),
    ([363, 0, 0], Empty, false, 4_249_214_596, 4_249_475_344),
    ([511, 0, 0], Empty, false, 260_100, 262_144),
    ([512, 0, 0], Empty, false, 0, 0),
    ([0, 0, -512], Empty, false, 0, 0),
    ([2047, -2047, 2047], Empty, false, 0, 0),
];

/// Its point of weight 8 and one of -4 at one place: the same field, and looser bounds.
/// One of them is above iso by more than the other is below.
const IN_SUM: [Row; 3] = [
    ([256, 256, 0], Inside, true, ISO, ISO),
    (
        [362, 5, 1],
        Crossing,
        true,
        2 * ISO - ABOVE,
        2 * ABOVE - ISO,
    ),
    (
        [362, 5, 2],
        Crossing,
        false,
        2 * BELOW - ISO,
        2 * ISO - BELOW,
    ),
];

/// That point cut out of a large one: twice iso less its bounds, which change ends.
const IN_CUT: [Row; 4] = [
    ([256, 256, 0], Inside, true, ISO, ISO),
    ([362, 5, 2], Inside, true, ISO, 2 * ISO - BELOW),
    ([362, 5, 1], Crossing, false, 2 * ISO - ABOVE, ISO),
    ([0, 0, 0], Empty, false, -2 * ISO, -2 * ISO),
];

/// The field is iso exactly, and 65536 u no whole number: 58254.2 a step from a centre
/// with r 3, w 81 and iso 64, and 62914.6 with r 5, w 625 and iso 576.
const BY_SMALL: [(u16, i16, u16, Row); 2] = [
    (
        3,
        81,
        64,
        ([0, 1, 0], Crossing, true, 274_875_809_796, 274_885_247_025),
    ),
    (
        5,
        625,
        576,
        (
            [0, 0, -1],
            Crossing,
            false,
            2_473_857_122_500,
            2_473_935_765_625,
        ),
    ),
];

/// Oblique places at the radius of a ball of weight 4096, and just within it.
const AT_RADII: [(u16, Row); 7] = [
    (3, ([2, 1, -2], Empty, false, 0, 0)),
    (7, ([3, -6, 2], Empty, false, 0, 0)),
    (65, ([-60, 0, 25], Empty, false, 0, 0)),
    (1023, ([682, 341, -682], Empty, false, 0, 0)),
    (1024, ([1023, 43, -14], Empty, false, 0, 4096)),
    (2, ([-1, 1, 1], Inside, true, 256 * ISO, 256 * ISO)),
    (1, ([0, 0, 0], Inside, true, 4096 * ISO, 4096 * ISO)),
];

fn scene(builder: FileBuilder, (at, mark, solid, low, high): Row) -> Scene {
    let scene = Scene::new(read(&builder.build()).expect("accepted"), at);
    assert_eq!(scene.bounds, Bounds { low, high }, "{at:?}");
    assert_eq!((scene.mark, scene.solid()), (mark, solid), "{at:?}");
    scene
}

pub fn k() -> FileBuilder {
    FileBuilder::new(1).point(512, [0; 3], 4)
}

/// The point of file K joined to another that leaves it as it is at the places where
/// it is undecided.
fn joined_k() -> [FileBuilder; 4] {
    let large = FileBuilder::new(1).point(1024, [0; 3], 4096);
    let small = FileBuilder::new(1).point(9, [-900, 0, 0], -4096);
    [
        large.point(512, [0; 3], 4).lesser(),
        k().point(1024, [5; 3], 4095).lesser(),
        small.point(512, [0; 3], 4).greater(),
        k().point(9, [900, 0, 0], -4096).sum(),
    ]
}

/// Two points that cancel, and one at whose centre the field alone is iso: the bounds are
/// as far above iso as below, and add up to exactly twice iso.
fn balanced() -> [Scene; 5] {
    [[5, 6, 7], [1, 0, 0], [0, -1, 0], [3, 2, 1], [100, 50, -25]].map(|at: [i16; 3]| {
        let builder = k().point(512, [0; 3], -4).sum().point(9, at, 1).sum();
        let part = read(&builder.build()).expect("accepted");
        let scene = Scene::new(part, at.map(i32::from));
        assert_eq!((scene.mark, scene.solid()), (Crossing, true));
        assert_eq!(scene.bounds.low + scene.bounds.high, 2 * ISO);
        scene
    })
}

/// All of them.
pub fn listed() -> Vec<Scene> {
    let twice = FileBuilder::new(1).point(512, [0; 3], 8);
    let sum = twice.point(512, [0; 3], -4).sum();
    let large = FileBuilder::new(1).point(1024, [0; 3], 4096);
    let cut = large.point(512, [0; 3], 4).cut();
    let mut scenes: Vec<Scene> = IN_K.map(|row| scene(k(), row)).into();
    scenes.extend(IN_SUM.map(|row| scene(sum.clone(), row)));
    scenes.extend(IN_CUT.map(|row| scene(cut.clone(), row)));
    for builder in joined_k() {
        scenes.extend(IN_K[6..10].iter().map(|&row| scene(builder.clone(), row)));
    }
    scenes.extend(
        BY_SMALL.map(|(r, w, iso, row)| scene(FileBuilder::new(iso).point(r, [0; 3], w), row)),
    );
    scenes.extend(AT_RADII.map(|(r, row)| scene(FileBuilder::new(1).point(r, [0; 3], 4096), row)));
    scenes.extend(balanced());
    scenes
}

#[test]
fn listed_places() {
    let mut host = Host::default();
    let scenes = listed();
    for scene in &scenes {
        scene.check(&mut host, &[0, 1, 4, 10, 11, 2046, 2047, u32::MAX]);
        scene.check_afresh(&mut host);
    }
    let undecided = scenes.iter().filter(|scene| scene.mark == Crossing);
    println!("{} places, {} calls", scenes.len(), host.calls());
    assert_eq!((scenes.len(), undecided.count()), (51, 25));
}
