//! Random and mutated bytes through every call: an answer always, nothing
//! written on refusal, and the file's refusal before any other.

use reference::cast::{bounds_at, column, first_hit, full_cast, FullCast};
use reference::field::Ray;
use reference::generate::{self, mutate, random_bytes, random_records, Shape, SplitMix64, STYLES};
use reference::lister::{input, list};
use reference::march::marching_cast;
use reference::part::{check, FileBuilder, Part};
use reference::view::{viewer_first_hit, ViewRay};

const SHAPE: Shape = Shape {
    points: (1, 6),
    reach: 800,
    radius: (1, 900),
    weight: (-20, 40),
    iso: (1, 6),
};

fn random_part(random: &mut SplitMix64) -> (Part, Vec<u8>) {
    let part = generate::part(random, &SHAPE);
    let length = random.pick(&[0, 0, 1, 12, 50]);
    let file = FileBuilder::from(&part).leading(&vec![3; length]).build();
    (part, file)
}

fn random_ray(random: &mut SplitMix64, part: &Part) -> Ray {
    let style = random.pick(&STYLES);
    let mut ray = generate::ray(random, part, style);
    match random.between(0, 9) {
        0 => ray.b = ray.a,
        1 => ray.a[random.between(0, 2) as usize] = random.next_u64() as i32,
        _ => {}
    }
    ray
}

/// A full cast or a marching cast.
type Cast = fn(&[u8], &Ray, u32, &mut [u8]) -> FullCast;

/// What a cast answers. It writes nothing on refusal, and else marks alone.
fn answer_of(cast: Cast, file: &[u8], ray: &Ray, budget: u32, length: usize) -> FullCast {
    let mut buffer = vec![0xa5; length];
    let answer = cast(file, ray, budget, &mut buffer);
    let written = match answer {
        FullCast::Refused(_) => 0,
        _ => 1024,
    };
    assert!(buffer[..written].iter().all(|&b| b <= 3));
    assert!(buffer[written..].iter().all(|&b| b == 0xa5));
    answer
}

/// All calls on one file and ray; whether the full cast was refused.
fn exercise(random: &mut SplitMix64, file: &[u8], ray: &Ray) -> bool {
    let budget = random.pick(&[0, 1, 17, 40, 100, u32::MAX]);
    let length = random.pick(&[0, 1023, 1024, 1030, 1024]);
    let cast = answer_of(full_cast, file, ray, budget, length);
    let march = answer_of(marching_cast, file, ray, budget, length);
    let hit = first_hit(file, ray, budget);
    match cast {
        FullCast::Refused(number) => {
            assert!((1..=12).contains(&number) || number == 14);
            assert_eq!(hit.probes().is_some(), number == 14);
            assert_eq!(march, cast);
        }
        _ => assert!(hit.probes() <= cast.probes() && march.probes().is_some()),
    }
    let mut bits = [0xa5; 130];
    let done = column(file, ray, &mut bits);
    let written = if done.probes().is_some() { 128 } else { 0 };
    assert!(bits[written..].iter().all(|&b| b == 0xa5));
    let at = bounds_at(file, ray.a);
    if let Err(number) = check(file) {
        assert_eq!(cast, FullCast::Refused(number));
        assert_eq!(done.number(), number);
        assert_eq!(hit.number(), u64::from(number));
        assert_eq!(at, Err(number));
    }
    let view = ViewRay {
        a: ray.a.map(|c| c as f32 / 64.0),
        b: ray.b.map(|c| f32::from_bits(c as u32)),
    };
    viewer_first_hit(file, view, budget);
    cast.probes().is_none()
}

#[test]
fn mutated_files() {
    let mut random = SplitMix64::new(61);
    let mut refused = 0;
    for _ in 0..20_000 {
        let (part, mut file) = random_part(&mut random);
        mutate(&mut random, &mut file);
        let ray = random_ray(&mut random, &part);
        refused += u32::from(exercise(&mut random, &file, &ray));
    }
    assert!((9_000..18_000).contains(&refused), "{refused}");
}

#[test]
fn random_files() {
    let mut random = SplitMix64::new(62);
    let (part, _) = random_part(&mut random);
    let mut numbers = [0; 12];
    for _ in 0..12_000 {
        let file = match random.one_in(3) {
            true => random_bytes(&mut random),
            false => random_records(&mut random),
        };
        let ray = random_ray(&mut random, &part);
        exercise(&mut random, &file, &ray);
        if let Err(number) = check(&file) {
            numbers[number as usize] += 1;
        }
    }
    for number in [1, 2, 3, 4, 5, 6, 7, 8, 9, 11] {
        assert!(numbers[number] > 0, "{numbers:?}");
    }
}

#[test]
fn cut_files() {
    let mut random = SplitMix64::new(63);
    for _ in 0..20 {
        let (part, file) = random_part(&mut random);
        let ray = random_ray(&mut random, &part);
        for length in 0..=file.len() {
            exercise(&mut random, &file[..length], &ray);
            exercise(&mut random, &file[file.len() - length..], &ray);
        }
    }
}

#[test]
fn lister_on_random_input() {
    let mut random = SplitMix64::new(64);
    for _ in 0..2_000 {
        let (part, file) = random_part(&mut random);
        let ray = random_ray(&mut random, &part);
        let mut input = input(&ray, random.next_u64() as u16 >> 6, &file);
        if random.one_in(2) {
            mutate(&mut random, &mut input);
        }
        let text = list(&input);
        assert!(text.ends_with('\n'));
        assert!(text.starts_with("refused ") || text.contains("probes "));
    }
}
