//! Graphs and plans as bytes, unsound ones too.

use crate::graph::{Graph, Length, Node, Pattern, Row, Target};

/// The file of a graph.
pub fn graph_file(graph: &Graph) -> Vec<u8> {
    let records: Vec<Vec<u8>> = graph.nodes.iter().map(record).collect();
    let mut file = vec![graph.nodes.len() as u8, 0];
    let mut offset = 2 + 4 * records.len();
    for record in &records {
        file.extend((offset as u16).to_be_bytes());
        file.extend((record.len() as u16).to_be_bytes());
        offset += record.len();
    }
    file.extend(records.concat());
    file
}

fn record(node: &Node) -> Vec<u8> {
    let mut bytes = vec![node.kind];
    bytes.extend(match node.length {
        Length::Fixed(length) => [0, length, 0, 0, 0, 0, 0],
        Length::Counted {
            place,
            mask,
            shift,
            unit,
            base,
        } => [1, place, mask, shift, unit, base, 0],
    });
    bytes.push(node.places.len() as u8);
    bytes.extend(&node.places);
    bytes.resize(13, 0);
    let range = node
        .rows
        .iter()
        .any(|row| matches!(row.pattern, Pattern::Range { .. }));
    bytes.extend([u8::from(range), node.rows.len() as u8, 0]);
    node.rows
        .iter()
        .for_each(|row| bytes.extend(row_bytes(row)));
    bytes
}

fn row_bytes(row: &Row) -> Vec<u8> {
    let (first, second) = match row.pattern {
        Pattern::Ternary { value, mask } => (value, mask),
        Pattern::Range { low, high } => (u32::from(low) << 16 | u32::from(high), 0),
    };
    let target = match row.target {
        Target::Node(node) => [0, node],
        Target::Done => [1, 0],
        Target::Dropped => [2, 0],
    };
    [&first.to_be_bytes()[..], &second.to_be_bytes(), &target].concat()
}

/// The bytes of a plan, for chains of at most 3 nodes.
pub fn plan_file(chains: &[Vec<u8>]) -> Vec<u8> {
    let mut file = Vec::new();
    for chain in chains {
        let mut part = vec![chain.len() as u8];
        part.extend(chain);
        part.resize(4, 0);
        file.extend(part);
    }
    file
}
