//! The numbers of a part's nodes, and part files written from such numbers.

use crate::part::{self, FileBuilder, Kind, Node, DEGREES, RECORD};

/// Numbers a node: kind, r, x, y, z and w.
pub const NODE_NUMBERS: usize = 6;
/// The most numbers: those of 511 nodes.
pub const MOST_NUMBERS: usize = 3066;

/// The greatest place at which a written part may end.
const MOST_BYTES: u128 = 65_536;

/// Writes records and trailer into the buffer from the place on. The place just
/// after the trailer, or the refusal number and no byte changed.
pub fn write(
    numbers: &[i32],
    iso: u32,
    version: u32,
    buffer: &mut [u8],
    place: usize,
) -> Result<usize, u32> {
    let bytes = encode(numbers, iso, version)?;
    let end = place as u128 + bytes.len() as u128;
    if end > MOST_BYTES || end > buffer.len() as u128 {
        return Err(17);
    }
    buffer[place..][..bytes.len()].copy_from_slice(&bytes);
    Ok(end as usize)
}

/// Questions 16, 3 and 5 to 11: the records and the trailer.
pub fn encode(numbers: &[i32], iso: u32, version: u32) -> Result<Vec<u8>, u32> {
    if !(1..=511).any(|nodes| numbers.len() == NODE_NUMBERS * nodes) {
        return Err(16);
    }
    let degree = part::degree_of(version, &DEGREES)?;
    part::iso_in_range(iso)?;
    let mut builder = FileBuilder::new(iso as u16).version(degree.version());
    let mut held = 0;
    for six in numbers.chunks_exact(NODE_NUMBERS) {
        let node = node(six)?;
        held = part::hold(node.kind, held)?;
        builder = builder.node(&node);
    }
    part::hold_one(held)?;
    let file = builder.build();
    assert_eq!(file.len(), RECORD * (numbers.len() / NODE_NUMBERS + 1));
    Ok(file)
}

/// Questions 6 to 8 on the six numbers of a node.
fn node(six: &[i32]) -> Result<Node, u32> {
    let kind = Kind::of(six[0])?;
    let [r, x, y, z, w] = [1, 2, 3, 4, 5].map(|i| six[i]);
    if kind == Kind::Point {
        part::point_in_range(r, [x, y, z], w)?;
    } else if [r, x, y, z, w] != [0; 5] {
        return Err(7);
    }
    let [x, y, z, w] = [x, y, z, w].map(|number| number as i16);
    Ok(Node {
        kind,
        r: r as u16,
        x,
        y,
        z,
        w,
    })
}

/// The six numbers of each node, in file order.
pub fn numbers(nodes: &[Node]) -> Vec<i32> {
    let six = |node: &Node| {
        let [x, y, z, w] = [node.x, node.y, node.z, node.w].map(i32::from);
        [node.kind as i32, node.r.into(), x, y, z, w]
    };
    nodes.iter().flat_map(six).collect()
}

/// The iso-value, the version and the nodes' numbers of a file, or the refusal
/// number.
pub fn read(file: &[u8]) -> Result<(u16, u16, Vec<i32>), u32> {
    let part = part::read(file)?;
    Ok((part.iso, part.degree.version(), numbers(&part.nodes)))
}
