//! What generated requests covered: a count for each class of each call's
//! answers, and for each kind of part cast at.

use reference::cast::{Column, FirstHit, FullCast, Mark};
use reference::part::{Degree, Kind, Node, Part};
use reference::view::ViewerHit;
use std::collections::BTreeMap;

/// Classes, and how often each must have come at least.
const CLASSES: [(&str, &[&str], u32); 18] = [
    ("check", &["accepted"], 3_000),
    ("place", &["accepted"], 3_000),
    ("full cast", &["complete", "spent"], 800),
    ("marks", &["empty", "crossing", "inside"], 400),
    ("marks", &["not looked at"], 800),
    ("marching cast", &["complete", "spent"], 1_000),
    ("marching marks", &["empty", "crossing", "inside"], 1_000),
    ("marching marks", &["not looked at"], 1_000),
    ("first hit", &["crossing", "inside", "clear", "spent"], 800),
    ("column", &["done"], 3_000),
    ("probes", &["1", "2 to 19", "20 to 199", "200 or more"], 40),
    ("viewer", &["crossing", "inside", "clear", "spent"], 250),
    ("budget", &["0", "1", "2", "3", "4", "5", "6"], 1_500),
    (
        "part",
        &[
            "one point",
            "several points",
            "sum",
            "greater",
            "lesser",
            "cut",
        ],
        600,
    ),
    (
        "part",
        &[
            "cut of a cut",
            "cut by a cut",
            "sum of a cut",
            "lesser of a cut",
        ],
        80,
    ),
    ("part", &["negative weight", "degree 4", "degree 6"], 1_500),
    ("part", &["511 records"], 20),
    ("no length", &["full cast", "viewer"], 90),
];

/// How often each refusal number of a call must have come at least. The others,
/// 13 among them, come never.
const REFUSED: u32 = 10;

/// The marks by their bytes.
const MARKS: [&str; 4] = ["empty", "crossing", "inside", "not looked at"];

/// The refusal numbers of each call.
const REFUSALS: [(&str, &[u32]); 7] = [
    ("check", &[1, 2, 3, 4, 5, 6, 7, 8, 9, 10, 11]),
    ("place", &[1, 2, 3, 4, 5, 6, 7, 8, 9, 10, 11, 12]),
    ("full cast", &[1, 2, 3, 4, 5, 6, 7, 8, 9, 10, 11, 12, 14]),
    (
        "marching cast",
        &[1, 2, 3, 4, 5, 6, 7, 8, 9, 10, 11, 12, 14],
    ),
    ("first hit", &[1, 2, 3, 4, 5, 6, 7, 8, 9, 10, 11, 12]),
    ("column", &[1, 2, 3, 4, 5, 6, 7, 8, 9, 10, 11, 12, 14]),
    ("viewer", &[1, 2, 3, 4, 5, 6, 7, 8, 9, 10, 11, 15]),
];

fn refused(number: u32) -> String {
    format!("refused {number}")
}

fn mark_name(mark: Mark) -> String {
    MARKS[usize::from(mark.byte())].to_string()
}

fn probes_name(probes: u32) -> &'static str {
    match probes {
        0..=1 => "1",
        2..=19 => "2 to 19",
        20..=199 => "20 to 199",
        _ => "200 or more",
    }
}

/// Whether nodes of these kinds stand one after the other. The operand that
/// stands right before an operator is its later one; an operator, a point and an
/// operator are an earlier one, a later one and what joins them.
fn in_a_row(part: &Part, kinds: &[Kind]) -> bool {
    let same = |nodes: &[Node]| nodes.iter().map(|n| n.kind).eq(kinds.iter().copied());
    part.nodes.windows(kinds.len()).any(same)
}

/// Counts by subject and class.
#[derive(Debug, Default)]
pub struct Coverage(BTreeMap<(&'static str, String), u32>);

impl Coverage {
    /// One more of the class.
    pub fn count(&mut self, subject: &'static str, class: impl ToString) {
        *self.0.entry((subject, class.to_string())).or_default() += 1;
    }

    /// How many of the class.
    fn of(&self, subject: &'static str, class: impl ToString) -> u32 {
        let key = (subject, class.to_string());
        self.0.get(&key).copied().unwrap_or_default()
    }

    /// The check of a file or the bounds at a place.
    pub fn answered<T>(&mut self, subject: &'static str, answer: Result<T, u32>) {
        match answer {
            Ok(_) => self.count(subject, "accepted"),
            Err(number) => self.count(subject, refused(number)),
        }
    }

    pub fn full_cast(&mut self, answer: FullCast, marks: &[u8]) {
        self.cast(["full cast", "marks"], answer, marks);
    }

    pub fn marching_cast(&mut self, answer: FullCast, marks: &[u8]) {
        self.cast(["marching cast", "marching marks"], answer, marks);
    }

    /// A cast that leaves marks, and their subject.
    fn cast(&mut self, [call, of_marks]: [&'static str; 2], answer: FullCast, marks: &[u8]) {
        match answer {
            FullCast::Refused(number) => return self.count(call, refused(number)),
            FullCast::Complete { .. } => self.count(call, "complete"),
            FullCast::Spent { .. } => self.count(call, "spent"),
        }
        for (byte, name) in (0..).zip(MARKS) {
            if marks.contains(&byte) {
                self.count(of_marks, name);
            }
        }
    }

    pub fn first_hit(&mut self, answer: FirstHit) {
        let class = match answer {
            FirstHit::Refused(number) => refused(number),
            FirstHit::Hit { mark, .. } => mark_name(mark),
            FirstHit::Clear { .. } => "clear".to_string(),
            FirstHit::Spent { .. } => "spent".to_string(),
        };
        self.count("first hit", class);
    }

    pub fn column(&mut self, answer: Column) {
        match answer {
            Column::Refused(number) => self.count("column", refused(number)),
            Column::Done { probes } => {
                self.count("column", "done");
                self.count("probes", probes_name(probes));
            }
        }
    }

    pub fn viewer(&mut self, answer: ViewerHit) {
        let class = match answer {
            ViewerHit::Refused(number) => refused(number),
            ViewerHit::Hit { mark, .. } => mark_name(mark),
            ViewerHit::Clear { .. } => "clear".to_string(),
            ViewerHit::Spent { .. } => "spent".to_string(),
        };
        self.count("viewer", class);
    }

    /// The part of an accepted ray.
    pub fn part(&mut self, part: &Part) {
        let negative = part.nodes.iter().any(|node| node.w < 0);
        let classes = [
            ("one point", part.nodes.len() == 1),
            ("several points", part.nodes.len() > 1),
            ("negative weight", negative),
            ("degree 4", part.degree == Degree::Four),
            ("degree 6", part.degree == Degree::Six),
            ("sum", in_a_row(part, &[Kind::Sum])),
            ("greater", in_a_row(part, &[Kind::Greater])),
            ("lesser", in_a_row(part, &[Kind::Lesser])),
            ("cut", in_a_row(part, &[Kind::Cut])),
            (
                "cut of a cut",
                in_a_row(part, &[Kind::Cut, Kind::Point, Kind::Cut]),
            ),
            ("cut by a cut", in_a_row(part, &[Kind::Cut, Kind::Cut])),
            ("sum of a cut", in_a_row(part, &[Kind::Cut, Kind::Sum])),
            (
                "lesser of a cut",
                in_a_row(part, &[Kind::Cut, Kind::Lesser]),
            ),
            ("511 records", part.nodes.len() == 511),
        ];
        for (class, _) in classes.iter().filter(|(_, holds)| *holds) {
            self.count("part", class);
        }
    }

    /// Prints the counts.
    pub fn print(&self) {
        for ((subject, class), count) in &self.0 {
            println!("{subject}, {class}: {count}");
        }
    }

    /// The requests of the calls named.
    pub fn requests(&self, calls: &[&str]) -> u32 {
        let of_calls = self.0.iter().filter(|((call, _), _)| calls.contains(call));
        of_calls.map(|(_, count)| count).sum()
    }

    fn assert_at_least(&self, least: u32, subject: &'static str, class: &str) {
        let count = self.of(subject, class);
        assert!(count >= least, "{subject}, {class}: {count}");
    }

    /// No class is rare.
    pub fn assert_populated(&self) {
        for (subject, classes, least) in CLASSES {
            let assert = |class| self.assert_at_least(least, subject, class);
            classes.iter().copied().for_each(assert);
        }
        for (call, numbers) in REFUSALS {
            let assert = |number| self.assert_at_least(REFUSED, call, &refused(number));
            numbers.iter().copied().for_each(assert);
            let mut others = (0..=25).filter(|number| !numbers.contains(number));
            assert!(others.all(|number| self.of(call, refused(number)) == 0));
        }
    }
}
