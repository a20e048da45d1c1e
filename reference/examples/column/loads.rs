//! The parts and the rays whose columns are made, casts or first hits.

use crate::{degrees, depth, mean};
use reference::field::Ray;
use reference::generate::{lattice, strut};
use reference::part::{read, FileBuilder, Kind, Node, Part, OPERATORS, REACH};
use std::fs;
use std::hint::black_box;
use std::path::Path;

/// A column of a file's part on a ray, or its marks: 65,536 + probes, or samples.
pub type RayCall = fn(&[u8], &Ray, &mut [u8]) -> u32;
/// A first hit of a file's part on a ray with a budget.
pub type HitCall = fn(&[u8], &Ray, u32) -> u64;
/// A call on a file as a whole.
pub type FileCall = fn(&[u8]);

/// The bytes that a call fills. They align the stack at a call, so that clearing
/// an array there takes the same instructions in every run.
#[repr(align(4096))]
struct Aligned<const BYTES: usize>([u8; BYTES]);

/// A part and the rays of its columns.
pub struct Load {
    pub name: String,
    pub points: usize,
    file: Vec<u8>,
    pub rays: Vec<Ray>,
}

impl Load {
    fn new(name: String, part: &Part, rays: Vec<Ray>) -> Load {
        Load {
            name,
            points: points(part).count(),
            file: FileBuilder::from(part).build(),
            rays,
        }
    }

    /// The part on other rays.
    pub fn on(&self, rays: Vec<Ray>) -> Load {
        Load {
            name: self.name.clone(),
            file: self.file.clone(),
            rays,
            ..*self
        }
    }

    /// The part as version 2, on the same rays.
    pub fn softer(&self) -> Load {
        let mut load = self.on(self.rays.clone());
        let at = load.file.len() - 10;
        load.file[at] = 2;
        load.name += ", version 2";
        load
    }

    /// A call on a ray: the probes, or samples, and the bytes it fills.
    pub fn fill<const BYTES: usize>(&self, ray: &Ray, call: RayCall) -> (u32, [u8; BYTES]) {
        let mut bytes = Aligned([0xa5; BYTES]);
        let number = call(black_box(&self.file), ray, &mut bytes.0);
        let probes = number.checked_sub(65_536).expect("an accepted ray");
        (probes, black_box(bytes.0))
    }

    /// A call on each ray once; answers the probes, or samples.
    pub fn fill_all<const BYTES: usize>(&self, call: RayCall) -> u32 {
        let probes = |ray| self.fill::<BYTES>(ray, call).0;
        self.rays.iter().map(probes).sum()
    }

    /// The number of a first hit on a ray, with a budget that is always enough.
    pub fn first_hit(&self, ray: &Ray, call: HitCall) -> u64 {
        black_box(&Aligned([0]));
        let number = call(black_box(&self.file), ray, 2047);
        assert!(number >> 32 > 0, "{} {ray:?}", self.name);
        number
    }

    /// A first hit on each ray once.
    pub fn hit_all(&self, call: HitCall) {
        self.rays.iter().for_each(|ray| {
            self.first_hit(ray, call);
        });
    }

    /// For each ray, how many points it comes within the radius of.
    pub fn in_reach(&self) -> Vec<f64> {
        let part = read(&self.file).expect("a part");
        let near = |ray: &Ray| points(&part).filter(|point| reaches(ray, point)).count();
        self.rays.iter().map(|ray| near(ray) as f64).collect()
    }

    /// The mean of that.
    pub fn mean_in_reach(&self) -> f64 {
        mean(self.in_reach().into_iter())
    }

    /// The records of the file.
    pub fn nodes(&self) -> usize {
        read(&self.file).expect("a part").nodes.len()
    }

    /// A call on the file, as often as there are rays.
    pub fn calls(&self, call: FileCall) {
        self.rays.iter().for_each(|_| call(black_box(&self.file)));
    }

    /// On how many rays a call leaves a byte that is not 0.
    pub fn solid<const BYTES: usize>(&self, call: RayCall) -> usize {
        let has_any = |ray: &&Ray| self.fill(ray, call).1 != [0; BYTES];
        self.rays.iter().filter(has_any).count()
    }
}

fn points(part: &Part) -> impl Iterator<Item = &Node> {
    part.nodes.iter().filter(|node| node.kind == Kind::Point)
}

fn inner(u: [i64; 3], v: [i64; 3]) -> i64 {
    u[0] * v[0] + u[1] * v[1] + u[2] * v[2]
}

/// Whether some place of the ray, fractional ones too, is nearer a point's centre than
/// its radius.
fn reaches(ray: &Ray, point: &Node) -> bool {
    let centre = [point.x, point.y, point.z];
    let from = [0, 1, 2].map(|i| i64::from(ray.a[i]) - i64::from(centre[i]));
    let way = ray.differences();
    let (e, m, a) = (inner(from, from), inner(from, way), inner(way, way));
    let square = i64::from(point.r) * i64::from(point.r);
    match -m {
        // the nearest place is A, or B, or between them
        foot if foot <= 0 => e < square,
        foot if foot >= a => e + 2 * m + a < square,
        _ => e * a - m * m < square * a,
    }
}

/// The least and the greatest coordinate of the points' balls along one axis,
/// as far as a ray reaches.
fn extent(part: &Part, along: fn(&Node) -> i16) -> (i32, i32) {
    let end = |node, sign: i32| i32::from(along(node)) + sign * i32::from(node.r);
    let low = points(part).map(|node| end(node, -1)).min();
    let high = points(part).map(|node| end(node, 1)).max();
    let [low, high] = [low, high].map(|end| end.expect("a point").clamp(-REACH, REACH));
    (low, high)
}

/// Rays along x, ten by ten, through the box of the points' balls.
fn raster(part: &Part) -> Vec<Ray> {
    let (from, to) = extent(part, |node| node.x);
    let (y, z) = (extent(part, |node| node.y), extent(part, |node| node.z));
    let place = |(low, high): (i32, i32), i: i32| low + (high - low) * (2 * i + 1) / 20;
    let ray = |n: i32| {
        let (y, z) = (place(y, n % 10), place(z, n / 10));
        Ray {
            a: [from, y, z],
            b: [to, y, z],
        }
    };
    (0..100).map(ray).collect()
}

/// The part files of the examples.
pub fn parts() -> Vec<Load> {
    let folder = Path::new(env!("CARGO_MANIFEST_DIR")).join("../examples/parts");
    let load = |name: &str| {
        let path = folder.join(name);
        let file = fs::read(&path).unwrap_or_else(|error| panic!("{}: {error}", path.display()));
        let part = read(&file).unwrap_or_else(|number| panic!("{name}: refused {number}"));
        Load::new(name.to_string(), &part, raster(&part))
    };
    let names = [
        "pad.part",
        "core.part",
        "core-cut.part",
        "core-sum.part",
        "bracket.part",
        "k.part",
    ];
    names.map(load).into()
}

fn lattice_load([x, y, z]: [i16; 3]) -> Load {
    let part = lattice([x, y, z]);
    Load::new(format!("lattice {x} x {y} x {z}"), &part, raster(&part))
}

/// Lattices of 1, 2, 4 and so on up to 256 points.
pub fn lattices() -> Vec<Load> {
    let sizes = |n: i16| [(n + 2) / 3, (n + 1) / 3, n / 3].map(|power| 1 << power);
    (0..=8).map(|n| lattice_load(sizes(n))).collect()
}

/// A lattice of 154 points.
pub fn lattice_of_154() -> Load {
    lattice_load([11, 7, 2])
}

/// The greatest number of points, all at one place. The first four cancel each
/// other, and the others, joined to them by one operator, leave the field 0.
fn undecided(kind: Kind) -> Part {
    let weight = |n: i32| match kind {
        Kind::Lesser if n > 3 => 4096,
        Kind::Greater | Kind::Cut if n > 3 => -4096,
        _ if n % 2 == 0 => 4096,
        _ => -4096,
    };
    let file = (0..256).fold(FileBuilder::new(1), |file, n| {
        let file = file.point(1024, [-1, 0, 0], weight(n));
        match n {
            0 => file,
            1..=3 => file.sum(),
            _ => file.operator(kind),
        }
    });
    read(&file.build()).expect("a part")
}

/// A column of a part on a ray along the x axis.
fn on_axis(name: String, part: &Part, from: i32, to: i32) -> Load {
    let ray = Ray {
        a: [from, 0, 0],
        b: [to, 0, 0],
    };
    Load::new(name, part, vec![ray])
}

/// A ray's first ticks lie where the points reach, and none of these is
/// decided; the others lie outside.
pub fn cancelled() -> Vec<Load> {
    let part = undecided(Kind::Sum);
    let load = |ticks| {
        let name = format!("crossing ticks: {ticks}");
        on_axis(name, &part, 1023 - ticks, 2047 - ticks)
    };
    [0, 1, 8, 16, 32, 64, 128, 256, 512, 1024].map(load).into()
}

/// A ray of which no tick is decided, by each operator.
pub fn operators() -> Vec<Load> {
    let load = |kind| {
        let name = format!("{kind:?}").to_lowercase();
        on_axis(name, &undecided(kind), 39, 999)
    };
    OPERATORS.map(load).into()
}

/// A strut that stands between two middles of ticks.
pub fn struts() -> Vec<Load> {
    let (part, rays) = strut(21);
    vec![Load::new("strut".to_string(), &part, rays)]
}

/// How many points of a part are far, and where they lie: beside the ray, so
/// that a large span holds the place nearest to them, or beyond its end.
const FAR: [(usize, &str, [i16; 3]); 5] = [
    (0, "far", BESIDE),
    (64, "beside", BESIDE),
    (255, "beside", BESIDE),
    (64, "beyond", BEYOND),
    (255, "beyond", BEYOND),
];
const BESIDE: [i16; 3] = [725, 1000, 0];
const BEYOND: [i16; 3] = [2000, 0, 0];

/// One near point and the far ones, summed, on a ray along the x axis. The
/// first load has no far point.
fn with_far(name: &str, near: [i16; 3], from: i32, to: i32) -> Vec<Load> {
    let load = |(n, side, far)| {
        let file = FileBuilder::new(1).point(1024, near, 4);
        let file = (0..n).fold(file, |file, _| file.point(300, far, 4).sum());
        let part = read(&file.build()).expect("a part");
        on_axis(format!("{name}, {n} {side}"), &part, from, to)
    };
    FAR.map(load).into()
}

/// Far points on two rays. The first goes across the near point's surface: one
/// tick is crossing, and the foot of the points beside lies in it. The second
/// goes along the surface: a fifth of its ticks are crossing.
pub fn far() -> [Vec<Load>; 2] {
    [
        with_far("across", [0; 3], 0, 1500),
        with_far("along", [724, 512, 512], 704, 744),
    ]
}

/// All loads whose columns are made.
pub fn all() -> Vec<Load> {
    let [across, along] = far();
    let lattice = vec![lattice_of_154()];
    let loads = [parts(), lattices(), lattice, cancelled(), operators()];
    let loads = loads.into_iter().chain([struts(), across, along]);
    loads.flatten().collect()
}

fn find(mut loads: impl Iterator<Item = Load>, name: &str) -> Load {
    let load = loads.find(|load| load.name == name);
    load.expect("the name of a load")
}

/// The load of this name whose part is of version 1.
pub fn of_version_1(name: &str) -> Load {
    find(all().into_iter(), name)
}

/// The load of this name.
pub fn named(name: &str) -> Load {
    let loads = all().into_iter().chain(depth::loads());
    find(loads.chain(degrees::softer()), name)
}
