//! Parse graphs and their files (docs/GRAPH_FILES.md), and the refusals 1 to 6 (docs/REFUSALS.md).

use crate::answer::Refusal;

pub const MOST_NODES: usize = 32;
pub const LONGEST_FILE: usize = 5762;
pub const MOST_ROWS: usize = 16;
/// Bytes of a record in front of its rows.
pub const RECORD_HEAD: usize = 16;
pub const ROW_BYTES: usize = 10;

/// The fewest bytes of each kind, by its number (docs/KINDS.md).
pub const MINIMUMS: [usize; 11] = [14, 4, 4, 20, 40, 20, 8, 4, 8, 28, 1];

#[derive(Clone, Copy, Debug, PartialEq, Eq)]
pub enum Length {
    Fixed(u8),
    Counted {
        place: u8,
        mask: u8,
        shift: u8,
        unit: u8,
        base: u8,
    },
}

#[derive(Clone, Copy, Debug, PartialEq, Eq)]
pub enum Pattern {
    Ternary { value: u32, mask: u32 },
    Range { low: u16, high: u16 },
}

impl Pattern {
    /// Whether a node's key fits.
    pub fn fits(self, key: u32) -> bool {
        match self {
            Pattern::Ternary { value, mask } => key & mask == value,
            Pattern::Range { low, high } => {
                (u32::from(low)..=u32::from(high)).contains(&(key >> 16))
            }
        }
    }

    /// Whether every key that fits the other fits this one. A node's rows are of one sort.
    pub fn covers(self, other: Pattern) -> bool {
        match (self, other) {
            (
                Pattern::Ternary { value, mask },
                Pattern::Ternary {
                    value: narrow,
                    mask: bits,
                },
            ) => mask & !bits == 0 && narrow & mask == value,
            (
                Pattern::Range { low, high },
                Pattern::Range {
                    low: from,
                    high: to,
                },
            ) => low <= from && to <= high,
            _ => false,
        }
    }
}

#[derive(Clone, Copy, Debug, PartialEq, Eq)]
pub enum Target {
    Node(u8),
    Done,
    Dropped,
}

#[derive(Clone, Copy, Debug, PartialEq, Eq)]
pub struct Row {
    pub pattern: Pattern,
    pub target: Target,
}

#[derive(Clone, Debug, PartialEq, Eq)]
pub struct Node {
    pub kind: u8,
    pub length: Length,
    pub places: Vec<u8>,
    pub rows: Vec<Row>,
}

impl Node {
    /// The fewest bytes that a header of the node's kind has.
    pub fn minimum(&self) -> usize {
        MINIMUMS[usize::from(self.kind)]
    }

    /// The header's length where that is fixed.
    pub fn fixed_length(&self) -> Option<usize> {
        match self.length {
            Length::Fixed(length) => Some(usize::from(length)),
            Length::Counted { .. } => None,
        }
    }
}

#[derive(Clone, Debug, PartialEq, Eq)]
pub struct Graph {
    pub nodes: Vec<Node>,
}

/// Reads a graph file, or answers the least refusal that applies.
pub fn read(file: &[u8]) -> Result<Graph, Refusal> {
    let shaped = (2..=LONGEST_FILE).contains(&file.len());
    if !shaped || !(1..=MOST_NODES).contains(&usize::from(file[0])) || file[1] != 0 {
        return Err(Refusal::at(1, 0, 0));
    }
    let records = records(file)?;
    for (node, record) in records.iter().enumerate() {
        if let Some(byte) = (0..record.len()).find(|&byte| !in_range(record, byte)) {
            return Err(Refusal::at(3, node, byte));
        }
    }
    let graph = Graph {
        nodes: records.into_iter().map(decode).collect(),
    };
    check(&graph)?;
    Ok(graph)
}

/// The records that the pairs name, in order.
fn records(file: &[u8]) -> Result<Vec<&[u8]>, Refusal> {
    let count = usize::from(file[0]);
    let mut begin = 2 + 4 * count;
    let mut records = Vec::new();
    for pair in 0..count {
        let record = record(file, pair, begin).ok_or(Refusal::at(2, pair, 0))?;
        begin += record.len();
        if pair + 1 == count && begin != file.len() {
            return Err(Refusal::at(2, pair, 0));
        }
        records.push(record);
    }
    Ok(records)
}

/// The record of a pair, which has to begin at `begin`.
fn record(file: &[u8], pair: usize, begin: usize) -> Option<&[u8]> {
    let numbers = file.get(2 + 4 * pair..6 + 4 * pair)?;
    let (offset, length) = (number(&numbers[..2]), number(&numbers[2..]));
    let record = file.get(offset..offset + length)?;
    let rows = usize::from(*record.get(14)?);
    (offset == begin && length == RECORD_HEAD + ROW_BYTES * rows).then_some(record)
}

fn number(bytes: &[u8]) -> usize {
    bytes
        .iter()
        .fold(0, |number, &byte| 256 * number + usize::from(byte))
}

/// Whether a byte of a record is in its range, given that those before it are.
fn in_range(record: &[u8], byte: usize) -> bool {
    let (value, counted, places) = (record[byte], record[1] == 1, usize::from(record[8]));
    match byte {
        0 => value <= 10,
        1 => value <= 1,
        2 if counted => value <= 63,
        2 => value >= 1,
        3 | 6 => counted || value == 0,
        4 => value <= if counted { 7 } else { 0 },
        5 if counted => (1..=8).contains(&value),
        5 | 7 | 15 => value == 0,
        8 => value <= 4,
        9..=12 => value <= if byte - 9 < places { 63 } else { 0 },
        13 => value == 0 || (value == 1 && places >= 2),
        14 => (1..=16).contains(&value),
        _ => {
            let (row, at) = (
                (byte - RECORD_HEAD) / ROW_BYTES,
                (byte - RECORD_HEAD) % ROW_BYTES,
            );
            let row = &record[RECORD_HEAD + ROW_BYTES * row..][..ROW_BYTES];
            row_in_range(row, at, record[13] == 1, places)
        }
    }
}

/// Whether a byte of a row is in its range.
fn row_in_range(row: &[u8], at: usize, range: bool, places: usize) -> bool {
    match at {
        0 if range => row[..2] <= row[2..4],
        1..=3 if range => true,
        4..=7 if range => row[at] == 0,
        0..=3 => row[at] & !row[at + 4] == 0 && (at < places || row[at] == 0),
        4..=7 => at - 4 < places || row[at] == 0,
        8 => row[8] <= 2,
        _ => row[8] == 0 || row[9] == 0,
    }
}

/// The node of a record whose bytes are in their ranges.
fn decode(record: &[u8]) -> Node {
    let length = match record[1] {
        0 => Length::Fixed(record[2]),
        _ => Length::Counted {
            place: record[2],
            mask: record[3],
            shift: record[4],
            unit: record[5],
            base: record[6],
        },
    };
    let range = record[13] == 1;
    Node {
        kind: record[0],
        length,
        places: record[9..9 + usize::from(record[8])].to_vec(),
        rows: record[RECORD_HEAD..]
            .chunks(ROW_BYTES)
            .map(|row| decode_row(row, range))
            .collect(),
    }
}

fn decode_row(row: &[u8], range: bool) -> Row {
    let four = |at: usize| u32::from_be_bytes([row[at], row[at + 1], row[at + 2], row[at + 3]]);
    let pattern = if range {
        Pattern::Range {
            low: (four(0) >> 16) as u16,
            high: four(0) as u16,
        }
    } else {
        Pattern::Ternary {
            value: four(0),
            mask: four(4),
        }
    };
    let target = match row[8] {
        0 => Target::Node(row[9]),
        1 => Target::Done,
        _ => Target::Dropped,
    };
    Row { pattern, target }
}

/// Refusals 4 to 6: each number over all nodes before the next.
fn check(graph: &Graph) -> Result<(), Refusal> {
    let count = graph.nodes.len();
    let onward = |node: usize, row: &Row| match row.target {
        Target::Node(next) => node < usize::from(next) && usize::from(next) < count,
        _ => true,
    };
    for (node, one) in graph.nodes.iter().enumerate() {
        if let Some(row) = one.rows.iter().position(|row| !onward(node, row)) {
            return Err(Refusal::at(4, node, row));
        }
    }
    for (node, one) in graph.nodes.iter().enumerate() {
        if let Some(row) = first_covered(&one.rows) {
            return Err(Refusal::at(5, node, row));
        }
    }
    match graph.nodes.iter().position(|node| {
        node.fixed_length()
            .is_some_and(|length| length < node.minimum())
    }) {
        Some(node) => Err(Refusal::at(6, node, 0)),
        None => Ok(()),
    }
}

/// The first row that one earlier row covers.
pub fn first_covered(rows: &[Row]) -> Option<usize> {
    (0..rows.len()).find(|&row| {
        rows[..row]
            .iter()
            .any(|earlier| earlier.pattern.covers(rows[row].pattern))
    })
}

#[cfg(test)]
mod tests {
    use super::*;
    use crate::samples;

    fn refused(place: usize, value: u8) -> Refusal {
        let mut file = samples::four_nodes();
        file[place] = value;
        read(&file).expect_err("the file is refused")
    }

    #[test]
    fn the_four_nodes_are_read() {
        let graph = read(&samples::four_nodes()).expect("the file is accepted");
        assert_eq!(graph.nodes.len(), 4);
        assert_eq!(graph.nodes[0].places, [12, 13]);
        assert_eq!(
            graph.nodes[2].length,
            Length::Counted {
                place: 0,
                mask: 15,
                shift: 0,
                unit: 4,
                base: 0
            }
        );
        let to_tcp = Pattern::Ternary {
            value: 0x0000_0600,
            mask: 0x1FFF_FF00,
        };
        assert_eq!(
            graph.nodes[2].rows[0],
            Row {
                pattern: to_tcp,
                target: Target::Node(3)
            }
        );
    }

    #[test]
    fn each_example_of_a_refusal_is_refused() {
        assert_eq!(read(&[]), Err(Refusal::at(1, 0, 0)));
        assert_eq!(refused(3, 19), Refusal::at(2, 0, 0));
        assert_eq!(refused(18, 11), Refusal::at(3, 0, 0));
        assert_eq!(refused(89, 1), Refusal::at(4, 1, 0));
        assert_eq!(refused(20, 13), Refusal::at(6, 0, 0));
        let mut file = samples::four_nodes();
        file[34..64].rotate_right(ROW_BYTES);
        assert_eq!(read(&file), Err(Refusal::at(5, 0, 1)));
    }

    #[test]
    fn the_example_of_covering_is_found() {
        let row = |value, mask| Row {
            pattern: Pattern::Ternary { value, mask },
            target: Target::Done,
        };
        let rows = [
            row(0x8100_0000, 0xFFFF_0000),
            row(0, 0),
            row(0x0800_0000, 0xFFFF_0000),
        ];
        assert_eq!(first_covered(&rows), Some(2));
        assert_eq!(first_covered(&rows[..2]), None);
    }
}
