//! The order of the writer's questions: 16, 3, 5, of each node 6 to 10, 11, 17.

use crate::calls::write;
use crate::drawings::{fault, operator, Drawing, Six, POINT};

/// The questions in order.
const QUESTIONS: [u32; 10] = [16, 3, 5, 6, 7, 8, 9, 10, 11, 17];

/// Two points and their sum.
fn whole() -> Drawing {
    Drawing::of(&[POINT, POINT, operator(2)])
}

/// The refusal number of a write that has room, or has none if `short`.
fn refusal(drawing: &Drawing, short: bool) -> u32 {
    let room = drawing.bytes() - usize::from(short);
    write(drawing, &vec![0x9d; room], 0).err().unwrap_or(0)
}

#[test]
fn each_question_alone() {
    assert_eq!(refusal(&whole(), false), 0);
    for question in QUESTIONS {
        let faulty = fault(whole(), question);
        assert_eq!(refusal(&faulty, question == 17), question);
    }
}

/// A fault of each question wins over one of each later question, in another
/// node where both are about nodes.
#[test]
fn each_earlier_question_wins() {
    for (i, &first) in QUESTIONS.iter().enumerate() {
        for &second in &QUESTIONS[i + 1..] {
            let both = fault(fault(whole(), first), second);
            assert_eq!(refusal(&both, second == 17), first, "{first} {second}");
        }
    }
}

/// Of two nodes the earlier one's fault wins, whatever the questions.
#[test]
fn the_earlier_node_wins() {
    for first in 6..=10 {
        for second in 6..=10 {
            let both = fault(fault(whole(), first), second);
            assert_eq!(refusal(&both, false), first, "{first} {second}");
        }
    }
}

/// All faults at once, and each of them taken away in turn.
#[test]
fn all_faults() {
    for (i, &first) in QUESTIONS.iter().enumerate() {
        let faulty = QUESTIONS[i..].iter().copied().fold(whole(), fault);
        assert_eq!(refusal(&faulty, true), first);
    }
}

/// The refusal number of a node after so many points.
fn after(points: usize, six: Six) -> u32 {
    refusal(&Drawing::of(&vec![POINT; points]).with(&[six]), true)
}

#[test]
fn faults_of_one_node() {
    for points in [0, 1, 64] {
        for kind in [0, 6, 257, -1] {
            assert_eq!(after(points, [kind, 0, 2048, 0, 0, 5000]), 6);
        }
    }
    assert_eq!(after(64, [1, 0, 0, 0, 0, 1]), 8);
    assert_eq!(after(64, [1, 1, 0, 0, -2048, 1]), 8);
    assert_eq!(after(64, POINT), 10);
    for kind in 2..=5 {
        for points in [0, 1] {
            assert_eq!(after(points, [kind, 0, 0, 1, 0, 0]), 7);
            assert_eq!(after(points, operator(kind)), 9);
        }
    }
}

/// A point is asked nothing by 7: whatever its five other numbers, 8 decides.
#[test]
fn a_point_has_no_zero_numbers() {
    for number in [-1, 65_536, i32::MIN, i32::MAX] {
        assert_eq!(after(0, [1, number, number, number, number, number]), 8);
    }
}

/// 17 is asked last: without room a fault still has its own number.
#[test]
fn no_room_is_asked_last() {
    for place in [1, 65_536, usize::MAX] {
        for room in [0, 1, 47, 48] {
            let contents = vec![0x9d; room];
            for question in QUESTIONS {
                let faulty = fault(whole(), question);
                assert_eq!(write(&faulty, &contents, place), Err(question));
            }
        }
    }
}
