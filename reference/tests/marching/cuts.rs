//! Candidates cut at the end of the ray.

use crate::calls::Host;
use crate::cases::count_by;
use crate::probes::{probes, Rule, RIGHT};
use crate::scenes::{drawn, entering_at, leaving_at, listed, Scene};

/// The mistake that a cut candidate shows.
pub const UNCUT_HALVED: Rule = Rule {
    after_undecided: |_, uncut| uncut / 2,
    ..RIGHT
};

/// On how many rays a candidate is cut, on how many a cut one is undecided, and on
/// how many the uncut length halved gives another count.
#[derive(Debug, Default, PartialEq, Eq)]
pub struct Cuts {
    pub cut: u32,
    pub undecided: u32,
    pub other_count: u32,
}

impl Cuts {
    pub fn count(&mut self, scene: &Scene) {
        let Scene { part, ray, .. } = scene;
        let right = probes(&RIGHT, part, ray);
        let mut cut = right.iter().filter(|probe| probe.is_cut());
        self.cut += u32::from(cut.clone().next().is_some());
        self.undecided += u32::from(cut.any(|probe| !probe.settles()));
        let other = probes(&UNCUT_HALVED, part, ray);
        self.other_count += u32::from(other.len() != right.len());
    }
}

/// File K, entered or left in each tick: one point, so that the marks alone give the
/// count.
#[test]
fn rays_that_cross_the_surface_in_each_tick() {
    let mut host = Host::quick();
    let mut cuts = Cuts::default();
    for scene in (0..1024).flat_map(|tick| [entering_at(tick), leaving_at(tick)]) {
        let (count, _, marks) = host.complete(&scene.file, &scene.ray);
        assert_eq!(count, count_by(&marks), "{:?}", scene.ray);
        for budget in [count - 1, count] {
            host.cast(&scene.file, &scene.ray, budget, 1024);
        }
        cuts.count(&scene);
    }
    println!("{cuts:?}");
    let expected = Cuts {
        cut: 2_045,
        undecided: 935,
        other_count: 896,
    };
    assert_eq!(cuts, expected);
}

/// Those of the listed rays, and of the drawn ones.
#[test]
fn candidates_are_cut_on_the_rays_tried() {
    let [on_listed, on_drawn] = [listed(), drawn()].map(|scenes| {
        let mut cuts = Cuts::default();
        scenes.iter().for_each(|scene| cuts.count(scene));
        println!("{cuts:?} of {}", scenes.len());
        cuts
    });
    assert!(on_listed.undecided >= 290 && on_listed.other_count >= 270);
    assert!(on_drawn.undecided >= 12 && on_drawn.other_count >= 8);
    assert!(on_listed.undecided > on_listed.other_count);
}
