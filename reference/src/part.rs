//! The part file: questions 1 to 11 on any bytes, the decoded nodes, and a
//! builder of part files.

/// Bytes in a record, and in the trailer.
pub const RECORD: usize = 12;
/// The last four bytes of a part file.
pub const FILE_MARK: [u8; 4] = [0x54, 0x52, 0x45, 0x45];
/// The greatest size of a coordinate, in steps.
pub const REACH: i32 = 2047;

/// What a record stands for, numbered by its byte 0. Of the last two values an
/// operator takes the earlier and the later one.
#[derive(Clone, Copy, Debug, PartialEq, Eq)]
pub enum Kind {
    /// A soft point.
    Point = 1,
    /// The sum of the two.
    Sum = 2,
    /// The greater of the two.
    Greater = 3,
    /// The lesser of the two.
    Lesser = 4,
    /// The earlier one with the later one removed.
    Cut = 5,
}

/// The operators.
pub const OPERATORS: [Kind; 4] = [Kind::Sum, Kind::Greater, Kind::Lesser, Kind::Cut];

impl Kind {
    /// The kind that the number stands for, or question 6's refusal.
    pub(crate) fn of(number: i32) -> Result<Kind, u32> {
        let mut kinds = [Kind::Point].into_iter().chain(OPERATORS);
        kinds.find(|&kind| kind as i32 == number).ok_or(6)
    }
}

/// The degree of the kernel that all points of a part have, numbered by the version
/// of its file.
#[derive(Clone, Copy, Debug, PartialEq, Eq)]
pub enum Degree {
    /// A point gives its weight times u squared.
    Four = 1,
    /// A point gives its weight times u cubed.
    Six = 2,
}

/// The degrees.
pub const DEGREES: [Degree; 2] = [Degree::Four, Degree::Six];

impl Degree {
    /// The version that stands for it.
    pub fn version(self) -> u16 {
        self as u16
    }

    /// The power of u.
    pub fn power(self) -> u32 {
        match self {
            Degree::Four => 2,
            Degree::Six => 3,
        }
    }
}

/// Question 3: which of the degrees known the version stands for.
pub(crate) fn degree_of(version: u32, known: &[Degree]) -> Result<Degree, u32> {
    let mut degrees = known.iter().copied();
    let of_version = degrees.find(|degree| u32::from(degree.version()) == version);
    of_version.ok_or(3)
}

/// A decoded record; an operator's numbers are 0.
#[derive(Clone, Copy, Debug, PartialEq, Eq)]
pub struct Node {
    /// What the node is.
    pub kind: Kind,
    /// Radius in steps.
    pub r: u16,
    /// Centre in steps.
    pub x: i16,
    /// Centre in steps.
    pub y: i16,
    /// Centre in steps.
    pub z: i16,
    /// Weight.
    pub w: i16,
}

/// An accepted part: its iso-value, its degree and its nodes in postfix order.
#[derive(Clone, Debug, PartialEq, Eq)]
pub struct Part {
    /// The field value from which a place is solid.
    pub iso: u16,
    /// The degree of the kernel.
    pub degree: Degree,
    /// The nodes in file order.
    pub nodes: Vec<Node>,
}

/// The check of a file: its node count and iso-value, or the refusal number.
pub fn check(file: &[u8]) -> Result<(u32, u32), u32> {
    let part = read(file)?;
    Ok((part.nodes.len() as u32, u32::from(part.iso)))
}

/// Asks questions 1 to 11 and decodes the part.
pub fn read(file: &[u8]) -> Result<Part, u32> {
    read_knowing(file, &DEGREES)
}

/// Reads as a reader of the first form does, whose question 3 reads: is the version 1?
pub fn read_first_form(file: &[u8]) -> Result<Part, u32> {
    read_knowing(file, &[Degree::Four])
}

fn read_knowing(file: &[u8], known: &[Degree]) -> Result<Part, u32> {
    let (records, iso, degree) = split(file, known)?;
    let mut nodes = Vec::new();
    let mut held = 0u32;
    for record in records.chunks_exact(RECORD) {
        let node = decode(record)?;
        held = hold(node.kind, held)?;
        nodes.push(node);
    }
    hold_one(held)?;
    Ok(Part { iso, degree, nodes })
}

/// Questions 1 to 5: the bytes of the records, the iso-value and the degree.
fn split<'a>(file: &'a [u8], known: &[Degree]) -> Result<(&'a [u8], u16, Degree), u32> {
    if file.len() < 24 || file.len() > 65_536 {
        return Err(1);
    }
    let (before, trailer) = file.split_at(file.len() - RECORD);
    if trailer[8..] != FILE_MARK {
        return Err(2);
    }
    let degree = degree_of(unsigned(trailer, 2).into(), known)?;
    let distance = u32::from_le_bytes([trailer[4], trailer[5], trailer[6], trailer[7]]) as usize;
    if !(24..=6144).contains(&distance) || distance.rem_euclid(RECORD) != 0 || distance > file.len()
    {
        return Err(4);
    }
    let iso = unsigned(trailer, 0);
    iso_in_range(iso.into())?;
    Ok((&before[file.len() - distance..], iso, degree))
}

/// Question 5.
pub(crate) fn iso_in_range(iso: u32) -> Result<(), u32> {
    (1..=4096).contains(&iso).then_some(()).ok_or(5)
}

/// Questions 6 to 8 on one record of 12 bytes.
fn decode(record: &[u8]) -> Result<Node, u32> {
    let kind = Kind::of(record[0].into())?;
    let zeros = match kind {
        Kind::Point => &record[1..2],
        _ => &record[1..RECORD],
    };
    if zeros.iter().any(|&byte| byte != 0) {
        return Err(7);
    }
    let node = Node {
        kind,
        r: unsigned(record, 2),
        x: signed(record, 4),
        y: signed(record, 6),
        z: signed(record, 8),
        w: signed(record, 10),
    };
    if kind == Kind::Point {
        point_in_range(node.r.into(), [node.x, node.y, node.z], node.w)?;
    }
    Ok(node)
}

/// Question 8.
pub(crate) fn point_in_range<T: Into<i32>>(r: i32, centre: [T; 3], w: T) -> Result<(), u32> {
    let reach = -2047..=2047;
    let right = (1..=1024).contains(&r)
        && centre.into_iter().all(|c| reach.contains(&c.into()))
        && (-4096..=4096).contains(&w.into());
    right.then_some(()).ok_or(8)
}

/// Questions 9 and 10: the number of values held after a node of the kind.
pub(crate) fn hold(kind: Kind, held: u32) -> Result<u32, u32> {
    match kind {
        Kind::Point if held < 64 => Ok(held + 1),
        Kind::Point => Err(10),
        _ if held >= 2 => Ok(held - 1),
        _ => Err(9),
    }
}

/// Question 11.
pub(crate) fn hold_one(held: u32) -> Result<(), u32> {
    (held == 1).then_some(()).ok_or(11)
}

fn unsigned(bytes: &[u8], at: usize) -> u16 {
    u16::from_le_bytes([bytes[at], bytes[at + 1]])
}

fn signed(bytes: &[u8], at: usize) -> i16 {
    i16::from_le_bytes([bytes[at], bytes[at + 1]])
}

/// Builds part files, faulty ones too. Without settings the trailer is right
/// for the records added, with version 1.
#[derive(Clone, Debug)]
pub struct FileBuilder {
    leading: Vec<u8>,
    records: Vec<[u8; RECORD]>,
    iso: u16,
    version: u16,
    distance: Option<u32>,
    mark: [u8; 4],
}

impl FileBuilder {
    /// A file with no records yet.
    pub fn new(iso: u16) -> FileBuilder {
        FileBuilder {
            leading: Vec::new(),
            records: Vec::new(),
            iso,
            version: Degree::Four.version(),
            distance: None,
            mark: FILE_MARK,
        }
    }

    /// Adds a record as it is.
    pub fn raw(mut self, record: [u8; RECORD]) -> FileBuilder {
        self.records.push(record);
        self
    }

    /// Adds a point.
    pub fn point(self, r: u16, centre: [i16; 3], w: i16) -> FileBuilder {
        self.raw(point_record(r, centre, w))
    }

    /// Adds an operator.
    pub fn operator(self, kind: Kind) -> FileBuilder {
        self.raw(operator_record(kind as u8))
    }

    /// Adds a sum.
    pub fn sum(self) -> FileBuilder {
        self.operator(Kind::Sum)
    }

    /// Adds a greater.
    pub fn greater(self) -> FileBuilder {
        self.operator(Kind::Greater)
    }

    /// Adds a lesser.
    pub fn lesser(self) -> FileBuilder {
        self.operator(Kind::Lesser)
    }

    /// Adds a cut.
    pub fn cut(self) -> FileBuilder {
        self.operator(Kind::Cut)
    }

    /// Adds a node.
    pub fn node(self, node: &Node) -> FileBuilder {
        match node.kind {
            Kind::Point => self.point(node.r, [node.x, node.y, node.z], node.w),
            operator => self.operator(operator),
        }
    }

    /// Sets the bytes before the first record.
    pub fn leading(mut self, bytes: &[u8]) -> FileBuilder {
        self.leading = bytes.to_vec();
        self
    }

    /// Sets the iso-value.
    pub fn iso(mut self, iso: u16) -> FileBuilder {
        self.iso = iso;
        self
    }

    /// Sets the version.
    pub fn version(mut self, version: u16) -> FileBuilder {
        self.version = version;
        self
    }

    /// Sets the distance back in place of the right one.
    pub fn distance(mut self, distance: u32) -> FileBuilder {
        self.distance = Some(distance);
        self
    }

    /// Sets the last four bytes.
    pub fn mark(mut self, mark: [u8; 4]) -> FileBuilder {
        self.mark = mark;
        self
    }

    /// The file's bytes.
    pub fn build(&self) -> Vec<u8> {
        let right = (self.records.len() + 1) * RECORD;
        let distance = self.distance.unwrap_or(right as u32);
        let mut file = self.leading.clone();
        for record in &self.records {
            file.extend_from_slice(record);
        }
        file.extend_from_slice(&self.iso.to_le_bytes());
        file.extend_from_slice(&self.version.to_le_bytes());
        file.extend_from_slice(&distance.to_le_bytes());
        file.extend_from_slice(&self.mark);
        file
    }
}

/// A point's record.
pub fn point_record(r: u16, centre: [i16; 3], w: i16) -> [u8; RECORD] {
    let mut record = [0; RECORD];
    record[0] = 1;
    record[2..4].copy_from_slice(&r.to_le_bytes());
    for (i, value) in centre.iter().chain([&w]).enumerate() {
        record[4 + 2 * i..6 + 2 * i].copy_from_slice(&value.to_le_bytes());
    }
    record
}

/// A record with the kind given and all other bytes zero.
pub fn operator_record(kind: u8) -> [u8; RECORD] {
    let mut record = [0; RECORD];
    record[0] = kind;
    record
}

impl From<&Part> for FileBuilder {
    fn from(part: &Part) -> FileBuilder {
        let empty = FileBuilder::new(part.iso).version(part.degree.version());
        part.nodes.iter().fold(empty, FileBuilder::node)
    }
}
