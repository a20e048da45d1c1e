//! Columns of the archive: a crossing tick's bit goes by the bounds at the tick's
//! exact middle. Rays worked out by hand, and generated columns, each compared with
//! the reference, whose bounds at middles are by fractions; and that these columns
//! find a mistake in the rule.

#[path = "common/host.rs"]
mod host;
#[path = "common/requests.rs"]
mod requests;
#[path = "common/worked.rs"]
mod worked;

use host::{column_by, entries};
use reference::cast::{middle_solid, Column};
use reference::field::{Bounds, ExactField, Ray, SpanBounds};
use reference::generate::{self, bored, cancelling, part_of_form, SplitMix64, FORMS, STYLES};
use reference::part::{read, FileBuilder, Part};
use reference::quick::TickField;
use requests::{operators_and_degree, GROUPS};
use std::array::from_fn;
use std::collections::BTreeMap;
use worked::{all_crossing, at_y, file_k, AXIS};

/// Spans by the quick path, and middles by the exact fractions.
struct ExactMiddles {
    spans: TickField,
    middles: ExactField,
}

impl SpanBounds for ExactMiddles {
    fn new(part: &Part, ray: Ray) -> ExactMiddles {
        ExactMiddles {
            spans: TickField::new(part, ray),
            middles: ExactField::new(part, ray),
        }
    }

    fn bounds(&self, first: u32, after: u32) -> Option<Bounds> {
        self.spans.bounds(first, after)
    }

    fn middle(&self, tick: u32) -> Option<Bounds> {
        self.middles.middle(tick)
    }
}

/// A crossing tick: its own bounds, those where it begins, in its middle and where
/// it ends, and the iso-value in their units.
struct Crossing {
    own: Bounds,
    start: Bounds,
    middle: Bounds,
    end: Bounds,
    level: i64,
}

impl Crossing {
    fn new(field: &TickField, tick: u32, iso: u16) -> Crossing {
        let bounds = |first, after| field.bounds(first, after).expect("a tree");
        Crossing {
            own: bounds(tick, tick + 1),
            start: bounds(tick, tick),
            middle: field.middle(tick).expect("a tree"),
            end: bounds(tick + 1, tick + 1),
            level: i64::from(iso) << 32,
        }
    }

    fn solid_by(&self, bounds: Bounds) -> bool {
        bounds.low + bounds.high >= 2 * self.level
    }
}

/// Mistaken rules for a crossing tick.
type Rule = (&'static str, fn(&Crossing) -> bool);

const MISTAKES: [Rule; 10] = [
    ("every one", |_| true),
    ("none", |_| false),
    ("low alone", |c| c.middle.low >= c.level),
    ("high alone", |c| c.middle.high >= c.level),
    ("more than", |c| c.middle.low + c.middle.high > 2 * c.level),
    ("once iso", |c| c.middle.low + c.middle.high >= c.level),
    ("its own bounds", |c| c.solid_by(c.own)),
    ("its start", |c| c.solid_by(c.start)),
    ("its end", |c| c.solid_by(c.end)),
    ("both ends", |c| c.solid_by(c.start) && c.solid_by(c.end)),
];

/// What was compared.
#[derive(Debug, Default)]
struct Seen {
    columns: u32,
    /// Columns that would be others with every crossing tick solid.
    changed: u32,
    /// Crossing ticks that are not solid, and that are.
    crossing: [u32; 2],
    /// The same, by the kinds of parts and rays.
    classes: BTreeMap<String, [u32; 2]>,
    /// Ticks that each mistaken rule settles otherwise.
    mistaken: [u32; MISTAKES.len()],
}

impl Seen {
    /// A column of the archive with the reference's, and its ticks with the archive's
    /// own marks. The ticks whose bits are set.
    fn compare(&mut self, part: &Part, ray: &Ray, classes: &[String]) -> Vec<u32> {
        let file = FileBuilder::from(part).build();
        let (column, bits) = column_by::<ExactMiddles>(&file, ray, 128);
        let mut marks = [9; 1024];
        let number = entries::full_cast(&file, ray, 2047, &mut marks);
        assert_eq!(column.number(), number, "{ray:?} {file:?}");
        let field = TickField::new(part, *ray);
        let mut crossing = [0; 2];
        let mut solid = Vec::new();
        for (tick, mark) in (0u32..).zip(marks) {
            let bit = bits[tick as usize / 8] >> (tick % 8) & 1;
            solid.extend((bit == 1).then_some(tick));
            match mark {
                1 => {
                    crossing[usize::from(bit)] += 1;
                    self.judge(&Crossing::new(&field, tick, part.iso), bit == 1);
                }
                _ => assert_eq!(bit, mark / 2, "{tick} {ray:?} {file:?}"),
            }
        }
        self.count(crossing, classes);
        solid
    }

    /// Asks each mistaken rule about a crossing tick.
    fn judge(&mut self, tick: &Crossing, solid: bool) {
        let differs = MISTAKES.map(|(_, rule)| u32::from(rule(tick) != solid));
        self.mistaken = from_fn(|i| self.mistaken[i] + differs[i]);
    }

    fn count(&mut self, crossing: [u32; 2], classes: &[String]) {
        let add = |to: &mut [u32; 2]| *to = from_fn(|i| to[i] + crossing[i]);
        self.columns += 1;
        self.changed += u32::from(crossing[0] > 0);
        add(&mut self.crossing);
        for class in classes {
            add(self.classes.entry(class.clone()).or_default());
        }
    }

    fn print(&self) {
        println!("{} columns, {} changed", self.columns, self.changed);
        println!("crossing: {:?}", self.crossing);
        println!("{:?}", self.classes);
        for ((name, _), count) in MISTAKES.iter().zip(self.mistaken) {
            println!("{name}: {count}");
        }
    }
}

/// Columns on rays of each style in turn through `count` parts.
fn compare_all(
    seen: &mut Seen,
    random: &mut SplitMix64,
    name: &str,
    count: usize,
    part: impl Fn(&mut SplitMix64, usize) -> Part,
) {
    for i in 0..count {
        let part = part(random, i);
        let style = STYLES[i % STYLES.len()];
        let ray = generate::ray(random, &part, style);
        let mut classes = operators_and_degree(&part);
        classes.extend([format!("{style:?}"), name.to_string()]);
        seen.compare(&part, &ray, &classes);
    }
}

#[test]
fn generated_columns() {
    let mut random = SplitMix64::new(191);
    let mut seen = Seen::default();
    for (count, shape) in GROUPS {
        let form =
            |random: &mut SplitMix64, i: usize| part_of_form(random, &shape, FORMS[i / 6 % 4]);
        compare_all(&mut seen, &mut random, "drawn", count, form);
    }
    compare_all(&mut seen, &mut random, "cancelling", 2_500, |r, _| {
        cancelling(r)
    });
    compare_all(&mut seen, &mut random, "bored", 7_500, |r, _| bored(r));
    seen.print();
    assert_eq!(seen.columns, 25_700);
    assert!(seen.changed > 5_000, "{seen:?}");
    assert!(seen.crossing.iter().all(|&n| n > 30_000), "{seen:?}");
    assert_eq!(seen.classes.len(), 5 + 2 + 6 + 3);
    let rare = |counts: &[u32; 2]| counts.iter().any(|&n| n < 800);
    assert!(!seen.classes.values().any(rare), "{seen:?}");
    // bounds that add up to exactly twice iso are among the worked ones
    let found = MISTAKES.iter().zip(seen.mistaken);
    let mut missed = found.filter(|((name, _), n)| *name != "more than" && *n < 100);
    assert!(missed.next().is_none(), "{seen:?}");
}

/// A part of one point at the origin.
fn one_point(r: u16, w: i16, iso: u16) -> Part {
    let file = FileBuilder::new(iso).point(r, [0; 3], w).build();
    read(&file).expect("accepted")
}

/// Its solid ticks.
fn solid(r: u16, w: i16, iso: u16, ray: &Ray) -> Vec<u32> {
    Seen::default().compare(&one_point(r, w, iso), ray, &[])
}

#[test]
fn file_k_on_the_worked_rays() {
    assert_eq!(file_k(), FileBuilder::new(1).point(512, [0; 3], 4).build());
    assert!(solid(512, 4, 1, &AXIS).into_iter().eq(331..=692));
    assert!(solid(512, 4, 1, &at_y(362)).into_iter().eq(509..=514));
    assert!(solid(512, 4, 1, &at_y(512)).is_empty());
}

/// With r 128, w 4 and iso 1 the field at y = 64 is exactly iso at x = -64 and
/// x = 64. Both bounds there are iso; the middle of a tick there is solid.
#[test]
fn bounds_that_add_up_to_twice_iso() {
    let ray = Ray {
        a: [-1023, 64, 0],
        b: [1025, 64, 0],
    };
    assert!(solid(128, 4, 1, &ray).into_iter().eq(479..=543));
    let field = TickField::new(&one_point(128, 4, 1), ray);
    for tick in [479, 543] {
        let middle = field.middle(tick).expect("a tree");
        let (low, high) = (1 << 32, 1 << 32);
        assert_eq!(middle, Bounds { low, high });
        assert!(middle_solid(middle, 1));
        let crossing = Crossing::new(&field, tick, 1);
        let found = MISTAKES.map(|(name, rule)| (name, rule(&crossing)));
        assert!(found.contains(&("more than", false)));
    }
    // where ticks begin at these places, they end the inside
    assert!(solid(128, 4, 1, &at_y(64)).into_iter().eq(480..=543));
}

/// The bounds settle it, not the exact field, which is iso in the middles of ticks
/// 511 and 512, one step from the centre. With r 3, w 81 and iso 64, 65536 u is
/// 58254.2, and the bounds add up to more; with r 5, w 625 and iso 576 it is
/// 62914.6, and they add up to less.
#[test]
fn a_field_equal_to_iso_by_rounded_bounds() {
    assert_eq!(solid(3, 81, 64, &AXIS), [511, 512]);
    assert!(solid(5, 625, 576, &AXIS).is_empty());
    for (part, sum) in [
        (one_point(3, 81, 64), 549_761_056_821),
        (one_point(5, 625, 576), 4_947_792_888_125),
    ] {
        let middle = TickField::new(&part, AXIS).middle(512).expect("a tree");
        assert_eq!(middle.low + middle.high, sum);
    }
}

/// All 1,024 ticks of a ray along which large points nearly cancel are crossing, and
/// their middles are not counted as probes.
#[test]
fn middles_are_no_probes() {
    let (file, ray) = all_crossing();
    let (column, bits) = column_by::<ExactMiddles>(&file, &ray, 128);
    assert_eq!(column, Column::Done { probes: 2047 });
    assert_eq!(bits, [0; 128]);
}
