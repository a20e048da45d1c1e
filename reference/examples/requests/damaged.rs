//! Damaged part files.

use reference::generate::{fault, mutate, random_bytes, random_records, SplitMix64};
use reference::part::{FileBuilder, Part, OPERATORS, RECORD};

/// The most bytes of a part file.
const MOST: usize = 65_536;

/// A damaged file of the part, or other bytes; never the part's own file.
pub fn damaged(random: &mut SplitMix64, part: &Part) -> Vec<u8> {
    let leading = vec![1; random.pick(&[0, 0, 0, 1, 12, 100])];
    let builder = FileBuilder::from(part).leading(&leading);
    let whole = builder.build();
    loop {
        let file = damage(random, &builder);
        if file != whole {
            return file;
        }
    }
}

fn damage(random: &mut SplitMix64, builder: &FileBuilder) -> Vec<u8> {
    let mut file = builder.build();
    match random.between(0, 15) {
        0..=2 => file = fault(builder.clone(), random.between(2, 11) as u32).build(),
        3..=5 => mutate(random, &mut file),
        6..=7 => flip(random, &mut file),
        8..=10 => overwrite_record(random, &mut file),
        11..=12 => overwrite_trailer(random, &mut file),
        13 => cut(random, &mut file),
        14 => extend(random, &mut file),
        _ if random.one_in(2) => splice(random, &mut file),
        _ => file = random.pick(&[random_bytes, random_records])(random),
    }
    file
}

/// Up to eight bits are flipped.
fn flip(random: &mut SplitMix64, file: &mut [u8]) {
    for _ in 0..random.between(1, 8) {
        let at = random.between(0, file.len() as i64 - 1) as usize;
        file[at] ^= 1 << random.between(0, 7);
    }
}

/// A byte of one point's radius, centre or weight is another, the higher byte of
/// a number by little; or an operator is another one.
fn overwrite_record(random: &mut SplitMix64, file: &mut [u8]) {
    let records = (file.len() / RECORD - 1) as i64;
    let start = file.len() - RECORD * random.between(2, records + 1) as usize;
    let record = &mut file[start..start + RECORD];
    let at = random.between(2, RECORD as i64 - 1) as usize;
    match (record[0], at % 2) {
        (1, 0) => record[at] = random.next_u64() as u8,
        (1, _) => record[at] ^= random.between(1, 3) as u8,
        (kind, _) => record[0] = another(random, kind),
    }
}

/// Another operator than the one of this kind.
fn another(random: &mut SplitMix64, kind: u8) -> u8 {
    let all = OPERATORS.map(|operator| operator as u8);
    let others: Vec<u8> = all.into_iter().filter(|&other| other != kind).collect();
    random.pick(&others)
}

/// Two bytes of the trailer, or two times two, are others, often limits.
fn overwrite_trailer(random: &mut SplitMix64, file: &mut [u8]) {
    for _ in 0..random.between(1, 2) {
        let at = file.len() - RECORD + random.pick(&[0, 0, 2, 4, 4, 6, 8, 10]);
        let any = random.next_u64() as u16;
        let value = random.pick(&[0, 1, 2, 3, 12, 24, 36, 60, 4096, 4097, 6144, 6156, any]);
        file[at..at + 2].copy_from_slice(&value.to_le_bytes());
    }
}

/// A piece of the start or of the end is lost, or all.
fn cut(random: &mut SplitMix64, file: &mut Vec<u8>) {
    let at = random.between(0, file.len() as i64) as usize;
    if random.one_in(8) {
        return file.clear();
    }
    match random.one_in(2) {
        true => file.truncate(at),
        false => drop(file.drain(..at)),
    }
}

/// Bytes are added at the end, or at the start, there also up to the most that a
/// file has or one more.
fn extend(random: &mut SplitMix64, file: &mut Vec<u8>) {
    let more = random.between(1, 40) as usize;
    if random.one_in(2) {
        return file.extend((0..more).map(|_| random.next_u64() as u8));
    }
    let to_most = MOST - file.len() + random.between(0, 1) as usize;
    let added = random.pick(&[more, more, more, to_most]);
    file.splice(..0, vec![random.next_u64() as u8; added]);
}

/// The start of one such file goes on with the end of another.
fn splice(random: &mut SplitMix64, file: &mut Vec<u8>) {
    let other = random_records(random);
    let at = random.between(0, file.len() as i64) as usize;
    let from = random.between(0, other.len() as i64) as usize;
    file.truncate(at);
    file.extend(&other[from..]);
}
