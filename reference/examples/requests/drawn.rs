//! Requests drawn at random.

use crate::damaged::damaged;
use crate::drawings::{self, placed, Drawing};
use crate::floats::changed;
use crate::request::{casting, is_counted, need, six};
use crate::request::{Request, BOUNDS, CHECK, COLUMN, COUNTED, FIRST_HIT, FULL_CAST};
use crate::request::{MARCH, READ, RESTORE, VIEW, WRITE};
use crate::requests;
use reference::generate::{cancelling_or_bored, part_of_form, SplitMix64, FORMS};
use reference::generate::{saved_record, totals};
use reference::part::{FileBuilder, Part};
use reference::totals::{Totals, CEILING, SAVED_BYTES};
use reference::view::in_millimetres;

/// The calls, each as often as it is drawn.
const DRAWN: [u8; 24] = [
    FULL_CAST,
    FULL_CAST,
    FIRST_HIT,
    FIRST_HIT,
    COLUMN,
    COLUMN,
    MARCH,
    MARCH,
    VIEW,
    VIEW,
    FULL_CAST + COUNTED,
    FIRST_HIT + COUNTED,
    COLUMN + COUNTED,
    MARCH + COUNTED,
    VIEW + COUNTED,
    VIEW + COUNTED,
    CHECK,
    BOUNDS,
    BOUNDS,
    WRITE,
    WRITE,
    WRITE,
    READ,
    RESTORE,
];

/// A request on a damaged file, drawing or saved record, or on a whole one.
pub fn drawn(random: &mut SplitMix64, on_damaged: bool) -> Request {
    let part = part(random);
    let request = match random.pick(&DRAWN) {
        WRITE => write(random, &part, on_damaged),
        RESTORE => restore(random, on_damaged),
        call => of_file(random, &part, call, on_damaged),
    };
    lent(random, request.answered())
}

/// The answered request, lent totals if the call uses them.
pub fn lent(random: &mut SplitMix64, mut request: Request) -> Request {
    if is_counted(request.call) || request.call == RESTORE {
        request.totals = totals_for(random, request.added());
    }
    request
}

/// Totals to which so much is added: each once in two at a limit, or where the
/// sum is a limit or next to it.
fn totals_for(random: &mut SplitMix64, added: Totals) -> Totals {
    let [drawn, added] = [totals(random), added].map(<[u64; 3]>::from);
    Totals::from([0, 1, 2].map(|i| {
        let limit = random.pick(&[u32::MAX.into(), CEILING]);
        let to_limit = limit - added[i];
        let at_limit = [limit, to_limit - 1, to_limit, to_limit.saturating_add(1)];
        match random.one_in(2) {
            true => random.pick(&at_limit),
            false => drawn[i],
        }
    }))
}

/// A write of the part.
fn write(random: &mut SplitMix64, part: &Part, on_damaged: bool) -> Request {
    let whole = Drawing::from(part);
    let drawing = match on_damaged {
        true => drawings::damaged(random, &whole),
        false => whole,
    };
    let (place, room) = placed(random, drawing.bytes());
    Request {
        call: WRITE,
        damaged: on_damaged,
        drawing,
        room,
        place,
        ..Request::default()
    }
}

/// A saved record, of 12 bytes unless damaged.
fn restore(random: &mut SplitMix64, on_damaged: bool) -> Request {
    let mut saved = saved_record(random);
    if !on_damaged {
        saved.resize(SAVED_BYTES, 0);
    }
    Request {
        call: RESTORE,
        damaged: on_damaged,
        saved,
        ..Request::default()
    }
}

/// A call that is handed a file of the part.
fn of_file(random: &mut SplitMix64, part: &Part, call: u8, on_damaged: bool) -> Request {
    let file = match on_damaged {
        true => damaged(random, part),
        false => FileBuilder::from(part).build(),
    };
    let mut request = Request {
        call,
        damaged: on_damaged,
        file,
        ray: ray(random, part, call),
        room: room(random, call),
        ..Request::default()
    };
    let count = request.probes().unwrap_or(1);
    request.budget = requests::budget(random.between(0, 6) as usize, count);
    request
}

/// A part of one of the groups, each as often as its number says, or one that
/// nearly cancels or is bored, as often as the first.
fn part(random: &mut SplitMix64) -> Part {
    let groups = requests::GROUPS.map(|(scenes, shape)| (scenes as i64, shape));
    let all: i64 = groups.iter().map(|(scenes, _)| scenes).sum();
    let mut at = random.between(0, all + groups[0].0 - 1);
    let group = groups.iter().find(|(scenes, _)| {
        at -= scenes;
        at < 0
    });
    match group {
        Some((_, shape)) => {
            let form = random.pick(&FORMS);
            part_of_form(random, shape, form)
        }
        None => cancelling_or_bored(random),
    }
}

/// A ray in steps, or in floats of which one may be no step, or a place.
fn ray(random: &mut SplitMix64, part: &Part, call: u8) -> [u32; 6] {
    if call == BOUNDS {
        return six(requests::place(random, part), [0; 3], |c| c as u32);
    }
    let ray = requests::ray(random, part);
    if casting(call) == Some(VIEW) {
        let (ray, _) = changed(random, &in_millimetres(&ray));
        return six(ray.a, ray.b, f32::to_bits);
    }
    six(ray.a, ray.b, |c| c as u32)
}

/// Room for the marks or the column, too little at times; for two bounds and for
/// the nodes' numbers always.
fn room(random: &mut SplitMix64, call: u8) -> usize {
    match (call, need(call)) {
        (_, 0) => 0,
        (BOUNDS | READ, need) => need,
        (_, need) => requests::room(random, need).1,
    }
}
