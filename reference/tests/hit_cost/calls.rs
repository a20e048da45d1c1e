//! First hits by the archive's four entries (in steps and as the viewer hands a ray
//! over, plain and counted), each compared with the reference: the number, the totals
//! and the numbers around them, and the file, which stays as it was. Each answer is
//! held to the promises.

use crate::entries;
use crate::guards::lent;
use crate::promises::{figure, Scene};
use reference::cast::{first_hit, first_hit_by, FirstHit};
use reference::field::{ExactField, Ray};
use reference::totals::Totals;
use reference::view::{in_millimetres, viewer_first_hit};

/// A first hit of the reference.
type Reference = fn(&[u8], &Ray, u32) -> FirstHit;

/// A host with its running totals.
pub struct Host {
    reference: Reference,
    totals: Totals,
}

impl Host {
    /// A host that is compared with the quick path.
    pub fn quick() -> Host {
        Host::by(first_hit)
    }

    /// A host that is compared with the viewer's first hit, by the quick path.
    pub fn viewing() -> Host {
        Host::by(|file, ray, budget| viewer_first_hit(file, in_millimetres(ray), budget).in_ticks())
    }

    /// A host that is compared with the exact fractions.
    pub fn exact() -> Host {
        Host::by(first_hit_by::<ExactField>)
    }

    fn by(reference: Reference) -> Host {
        Host {
            reference,
            totals: Totals::default(),
        }
    }

    /// The calls made by the four entries.
    pub fn calls(&self) -> u64 {
        2 * self.totals.casts
    }

    /// A first hit by each entry.
    pub fn first_hit(&mut self, scene: &Scene, budget: u32) -> FirstHit {
        let (copy, ray) = (scene.file.clone(), &scene.ray);
        let view = in_millimetres(ray);
        let answer = (self.reference)(&scene.file, ray, budget);
        let plain = [
            entries::first_hit(&copy, ray, budget),
            entries::viewer_first_hit(&copy, &view, budget),
        ];
        let (counted, after) = lent(self.totals, |totals| {
            [
                entries::first_hit_counted(&copy, ray, budget, totals),
                entries::viewer_first_hit_counted(&copy, &view, budget, totals),
            ]
        });
        let right = [answer.number(); 2];
        assert_eq!([plain, counted], [right; 2], "{budget} {scene:?}");
        let probes = answer.probes();
        self.totals = self.totals.after(probes).after(probes);
        assert_eq!(after, self.totals, "{budget} {scene:?}");
        assert_eq!(copy, scene.file);
        assert!(
            scene.keeps(figure, budget, answer),
            "{answer:?} {budget} {scene:?}"
        );
        answer
    }
}
