//! Requests whose version is wrong, and one thing more: the first question answered no
//! decides.

use crate::drawings::{self, operator, Drawing, POINT};
use crate::drawn::lent;
use crate::limits::{of_steps, whole, A, B};
use crate::request::{need, Request, CALLS, RESTORE, WRITE};
use reference::generate::{fault, SplitMix64};

/// Each call that is handed a file, with a fault of each question after the first; the
/// mark alone is asked before the version.
fn of_files() -> Vec<Request> {
    let calls = (0..CALLS as u8).filter(|&call| call != WRITE && call != RESTORE);
    let requests = calls.flat_map(|call| {
        [2, 4, 5, 6, 7, 8, 9, 10, 11].map(|question| Request {
            call,
            file: fault(whole().version(3), question).build(),
            ray: of_steps(call, A, B),
            budget: 2047,
            room: need(call),
            number: question.min(3).into(),
            ..Request::default()
        })
    });
    requests.collect()
}

/// Writes with a fault of each other question; the count alone is asked before the
/// version.
fn of_writes() -> Vec<Request> {
    let versions = [0, 3, 65_537].into_iter();
    let requests = versions.flat_map(|version| {
        [5, 6, 7, 8, 9, 10, 11, 16, 17].map(|question| {
            let joined = Drawing::of(&[POINT, POINT, operator(2)]);
            let faulty = drawings::fault(joined, question);
            let bytes = faulty.bytes();
            Request {
                call: WRITE,
                drawing: Drawing { version, ..faulty },
                room: if question == 17 { bytes - 1 } else { bytes },
                number: if question == 16 { 16 } else { 3 },
                ..Request::default()
            }
        })
    });
    requests.collect()
}

/// Every such request. Asserts the numbers.
pub fn orders(random: &mut SplitMix64) -> Vec<Request> {
    let requests = of_files().into_iter().chain(of_writes());
    let answer = |request: Request| {
        let number = request.number;
        let answered = lent(random, request.answered());
        assert_eq!(answered.number, number, "call {}", answered.call);
        answered
    };
    requests.map(answer).collect()
}
