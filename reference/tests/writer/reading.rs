//! The reader of nodes on files accepted and refused: the number, the numbers
//! and the rest of the array.

use crate::calls::read;
use crate::requests::{file, GROUPS};
use reference::generate::{self, fault, mutate, random_records};
use reference::generate::{part_of_form, SplitMix64, FORMS};
use reference::part::FileBuilder;

/// Two points and the greater of them.
fn two_points() -> FileBuilder {
    let first = FileBuilder::new(4096).point(1024, [-2047, 2047, -1], -4096);
    first.point(1, [258, -258, 0], 4096).greater()
}

#[test]
fn numbers_of_a_worked_file() {
    let first = [1, 1024, -2047, 2047, -1, -4096];
    let second = [1, 1, 258, -258, 0, 4096];
    let numbers = [first, second, [3, 0, 0, 0, 0, 0]].concat();
    for leading in [0, 1, 11, 12, 36, 65_536 - 48] {
        let file = two_points().leading(&vec![1; leading]).build();
        assert_eq!(read(&file), Ok((4096, 1, numbers.clone())));
        let file = two_points().version(2).leading(&vec![1; leading]).build();
        assert_eq!(read(&file), Ok((4096, 2, numbers.clone())));
    }
}

#[test]
fn lengths() {
    let k = FileBuilder::new(1).point(512, [0; 3], 4).build();
    for length in 0..24 {
        assert_eq!(read(&k[24 - length..]), Err(1));
    }
    assert_eq!(read(&k), Ok((1, 1, vec![1, 512, 0, 0, 0, 4])));
    let long = two_points().leading(&[1; 65_536 - 47]);
    assert_eq!(read(&long.build()), Err(1));
}

#[test]
fn each_refusal() {
    for question in 1..=11 {
        let file = fault(two_points(), question).build();
        assert_eq!(read(&file), Err(question));
    }
}

#[test]
fn the_most_nodes() {
    let join = |b: FileBuilder, i: i16| b.point(1 + i as u16, [i, -i, 2 * i], -i).cut();
    let most = (0..255).fold(FileBuilder::new(9).point(7, [1, 2, 3], 4), join);
    let (iso, version, numbers) = read(&most.build()).expect("accepted");
    assert_eq!((iso, version, numbers.len()), (9, 1, 3066));
    assert_eq!(
        numbers[3054..],
        [1, 255, 254, -254, 508, -254, 5, 0, 0, 0, 0, 0]
    );
    assert_eq!(read(&most.sum().build()), Err(4));
}

/// Damaged files, by refusal number; those accepted first.
#[test]
fn generated_files() {
    let mut random = SplitMix64::new(152);
    let mut answers = [0; 12];
    for i in 0..12_000 {
        let (_, shape) = GROUPS[i % GROUPS.len()];
        let part = part_of_form(&mut random, &shape, FORMS[i / 10 % 4]);
        let mut file = match i % 3 {
            0 => generate::fault(FileBuilder::from(&part), random.between(1, 11) as u32).build(),
            1 => random_records(&mut random),
            _ => file(&mut random, &part),
        };
        if i % 4 == 0 {
            mutate(&mut random, &mut file);
        }
        answers[read(&file).err().unwrap_or(0) as usize] += 1;
    }
    println!("{answers:?}");
    assert!(answers[0] >= 2_000);
    assert!(answers.iter().all(|&count| count >= 100));
}
