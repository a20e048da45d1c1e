//! The benchmark's two columns in Rust, plain and by samples, against the
//! reference; a strut thinner than a tick; walls of known thickness.

#[path = "../examples/column/plain.rs"]
mod plain;
#[path = "../examples/column/samples.rs"]
mod samples;
#[path = "common/worked.rs"]
mod worked;

use plain::plain_column;
use reference::cast::{self, Column, FullCast, TICKS};
use reference::field::Ray;
use reference::fraction::Fraction;
use reference::generate::{self, cancelling_or_bored, fault, lattice, part_of_form, strut};
use reference::generate::{Shape, SplitMix64, FORMS, OVERLAPPING, STYLES};
use reference::part::{check, Degree, FileBuilder, Part};
use reference::walls::{walls, LENGTHS};
use samples::sampled_column;
use worked::{at_y, file_k, AXIS};

fn compare(file: &[u8], ray: &Ray, room: usize) -> u32 {
    let (mut ours, mut expected) = (vec![0xa5; room], vec![0xa5; room]);
    let number = plain_column(file, ray, &mut ours);
    let answer = cast::column(file, ray, &mut expected);
    assert_eq!(number, answer.number(), "{ray:?} {file:?}");
    assert_eq!(ours, expected, "{ray:?} {file:?}");
    number
}

/// The file of a part, and a random ray of any style.
fn request(random: &mut SplitMix64, part: &Part) -> (Vec<u8>, Ray) {
    let style = random.pick(&STYLES);
    let ray = generate::ray(random, part, style);
    (FileBuilder::from(part).build(), ray)
}

/// Part `i` of a series, of degree 4, which is the benchmark's: of the four forms in
/// turn, then one that nearly cancels or is bored.
fn draw(random: &mut SplitMix64, i: usize) -> Part {
    let shape = Shape {
        points: (1, 70),
        reach: 700,
        radius: (1, 1024),
        weight: (-4096, 4096),
        iso: (1, 4096),
    };
    let shape = random.pick(&[shape, OVERLAPPING]);
    let part = match FORMS.get(i % 5) {
        Some(&form) => part_of_form(random, &shape, form),
        None => cancelling_or_bored(random),
    };
    Part {
        degree: Degree::Four,
        ..part
    }
}

/// The marks, the column and the sampled column of a ray.
fn cast_all(file: &[u8], ray: &Ray) -> ([u8; 1024], [u8; 128], [u8; 128]) {
    let (mut marks, mut column, mut sampled) = ([3; 1024], [0xa5; 128], [0xa5; 128]);
    let answer = cast::full_cast(file, ray, 2047, &mut marks);
    assert!(matches!(answer, FullCast::Complete { .. }), "{answer:?}");
    let answer = cast::column(file, ray, &mut column);
    assert!(matches!(answer, Column::Done { .. }), "{answer:?}");
    assert_eq!(sampled_column(file, ray, &mut sampled), 65_536 + TICKS);
    (marks, column, sampled)
}

/// The ticks that samples were compared on, by mark; crossing ones also by
/// their bit and by the sampled one.
#[derive(Debug, Default)]
struct Ticks {
    empty: u32,
    inside: u32,
    crossing: [[u32; 2]; 2],
}

impl Ticks {
    /// An empty tick has no bit, sampled or not, and an inside tick has both.
    fn compare(&mut self, file: &[u8], ray: &Ray) {
        let (marks, column, sampled) = cast_all(file, ray);
        for (tick, mark) in marks.into_iter().enumerate() {
            let [bit, sample] = [column, sampled].map(|bits| bits[tick / 8] >> (tick % 8) & 1);
            match (mark, bit, sample) {
                (0, 0, 0) => self.empty += 1,
                (2, 1, 1) => self.inside += 1,
                (1, _, _) => self.crossing[usize::from(bit)][usize::from(sample)] += 1,
                _ => panic!("tick {tick}, mark {mark}, {bit}, {sample}: {ray:?} {file:?}"),
            }
        }
    }
}

#[test]
fn worked_rays_and_refusals() {
    assert_eq!(compare(&file_k(), &AXIS, 128), 65_575);
    assert_eq!(compare(&file_k(), &at_y(362), 128), 65_575);
    assert_eq!(compare(&file_k(), &at_y(512), 128), 65_537);
    assert_eq!(compare(&file_k(), &AXIS, 127), 14);
    assert_eq!(compare(&file_k(), &at_y(2048), 0), 12);
    let k = FileBuilder::new(1).point(512, [0; 3], 4);
    for question in 1..=11 {
        let file = fault(k.clone(), question).build();
        assert_eq!(compare(&file, &AXIS, 128), question);
    }
}

#[test]
fn lattices() {
    let mut random = SplitMix64::new(121);
    let parts = [lattice([5, 5, 6]), lattice([6, 6, 7])];
    for (part, records) in parts.iter().zip([299, 503]) {
        let file = FileBuilder::from(part).build();
        assert_eq!(check(&file), Ok((records, 1)));
        for _ in 0..100 {
            let (file, ray) = request(&mut random, part);
            compare(&file, &ray, 130);
        }
    }
}

#[test]
fn generated() {
    let mut random = SplitMix64::new(122);
    let mut long = 0;
    for i in 0..3_000 {
        let part = draw(&mut random, i);
        let (file, ray) = request(&mut random, &part);
        let number = compare(&file, &ray, 130);
        long += u32::from(number > 65_536 + 30);
    }
    assert!(long > 600, "{long}");
}

#[test]
fn samples_of_refused_rays() {
    let mut column = [0xa5; 128];
    assert_eq!(sampled_column(&[], &AXIS, &mut column), 1);
    assert_eq!(sampled_column(&file_k(), &at_y(2048), &mut column), 12);
    assert_eq!(sampled_column(&file_k(), &AXIS, &mut column[..127]), 14);
    assert_eq!(column, [0xa5; 128]);
}

#[test]
fn samples_where_a_tick_is_decided() {
    let mut random = SplitMix64::new(123);
    let mut ticks = Ticks::default();
    for i in 0..4_000 {
        let part = match i % 30 {
            29 => lattice([5, 5, 6]),
            _ => draw(&mut random, i),
        };
        let (file, ray) = request(&mut random, &part);
        ticks.compare(&file, &ray);
    }
    println!("{ticks:?}");
    assert!(ticks.empty > 100_000 && ticks.inside > 100_000, "{ticks:?}");
    let [[neither, sampled_alone], [bit_alone, both]] = ticks.crossing;
    assert!(neither > 5_000 && both > 5_000, "{ticks:?}");
    // the rounding of bounds settles these: the field is so near iso
    assert!(sampled_alone + bit_alone < 1_000, "{ticks:?}");
}

/// A strut that stands where one tick ends and the next begins, and is thinner than
/// a tick: the marks of both ticks show it, and no middle meets it, so that neither
/// a column nor samples have a bit of it.
#[test]
fn marks_alone_show_a_strut_thinner_than_a_tick() {
    let (part, rays) = strut(21);
    let file = FileBuilder::from(&part).build();
    assert_eq!(rays.len(), 41);
    let mut expected = [0; 1024];
    expected[511..=512].fill(1);
    for ray in rays {
        assert_eq!(
            cast_all(&file, &ray),
            (expected, [0; 128], [0; 128]),
            "{ray:?}"
        );
    }
}

/// A ball of weight k² times iso is solid up to d from its centre, where d² is
/// r² (k - 1)/k.
#[test]
fn thickness_of_balls() {
    let balls = walls().into_iter().filter(|wall| wall.name == "ball");
    let of_weight_4 = balls.step_by(4).zip([2, 7, 21, 86]);
    for (wall, r) in of_weight_4 {
        let [low, high] = wall.thickness.map(|thickness| &thickness * &thickness);
        let exact = Fraction::from(2 * r * r);
        assert!(low <= exact && exact < high, "{r}");
        assert!(&high - &low < Fraction::new(1, 1 << 20).expect("a fraction"));
    }
}

/// With every crossing tick solid a wall is up to two ticks too thick, and by the
/// middles within one tick of right.
#[test]
fn walls_of_known_thickness() {
    let walls = walls();
    assert_eq!(walls.len(), 76);
    let (mut count, mut range) = (0, [[f64::INFINITY, f64::NEG_INFINITY]; 2]);
    let of_length = |length| walls.iter().flat_map(move |wall| wall.stands(length));
    for stand in LENGTHS.into_iter().flat_map(of_length) {
        let (marks, column, _) = cast_all(&stand.file, &stand.ray);
        let printed = stand.printed(&marks, &column).expect("one piece");
        assert!(printed.is_right(), "{printed:?} {:?}", stand.ray);
        let more = printed.more();
        range = [0, 1].map(|i| [range[i][0].min(more[i]), range[i][1].max(more[i])]);
        count += 1;
    }
    println!("{count} walls, {range:?}");
    assert_eq!(count, 76 * 24 * 3);
    let [[least, most], [less, more]] = range;
    assert!(least < 0.1 && most > 1.9 && less < -0.9 && more > 0.9);
}
