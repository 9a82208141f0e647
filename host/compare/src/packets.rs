//! Random packets, most of them shaped to a graph so that walks go deep.

use crate::graph::{Graph, Length, Node, Pattern, Row, Target};
use crate::random::Random;
use crate::walk::{decide, measured};

pub const LONGEST_PACKET: usize = 9600;

/// A packet for a graph: shaped to it, and then left, cut, changed or made long; or wholly random.
pub fn packet(random: &mut Random, graph: &Graph) -> Vec<u8> {
    let mut packet = shaped(random, graph);
    match random.weighted(&[46, 16, 14, 6, 10, 3, 2, 3]) {
        0 => {
            let payload = random.pick(&[0, 0, 1, 20, 46]);
            packet.extend(random.bytes(payload));
        }
        1 => packet.truncate(random.below(packet.len() + 1)),
        2 => {
            for _ in 0..random.between(1, 3) {
                let place = random.below(packet.len());
                packet[place] = random.byte();
            }
        }
        3 => drop(packet.pop()),
        4 => {
            let length = random.below(200);
            packet = random.bytes(length);
        }
        5 => packet.resize(LONGEST_PACKET - random.pick(&[0, 0, 1, 100]), 0),
        6 => packet.clear(),
        _ => packet.resize(
            LONGEST_PACKET + random.pick(&[1, 1, 2, 100, 2400, 60_000]),
            0,
        ),
    }
    packet
}

/// A packet whose bytes lead along rows of the graph, one header after the other.
fn shaped(random: &mut Random, graph: &Graph) -> Vec<u8> {
    let (mut node, mut offset) = (0, 0);
    let mut packet = Vec::new();
    loop {
        let one = &graph.nodes[node];
        let farthest = one
            .places
            .iter()
            .copied()
            .chain(counted_from(one))
            .max()
            .map_or(0, |place| usize::from(place) + 1);
        grow(random, &mut packet, offset + farthest);
        put_length(random, one, &mut packet, offset);
        put_key(random, one, &mut packet, offset);
        let length = measured(one, &packet, offset);
        grow(random, &mut packet, offset + length.max(1));
        match decide(one, &packet, offset) {
            Some(Target::Node(next)) if length >= one.minimum() => {
                node = usize::from(next);
                offset += length;
            }
            _ => return packet,
        }
    }
}

/// Random bytes behind the packet's own, up to a length.
fn grow(random: &mut Random, packet: &mut Vec<u8>, length: usize) {
    while packet.len() < length {
        packet.push(random.byte());
    }
}

fn counted_from(node: &Node) -> Option<u8> {
    match node.length {
        Length::Counted { place, .. } => Some(place),
        Length::Fixed(_) => None,
    }
}

/// Draws the byte that the length is counted from until the header is long enough, in most cases.
fn put_length(random: &mut Random, node: &Node, packet: &mut [u8], offset: usize) {
    if let Some(place) = counted_from(node) {
        for _ in 0..random.between(1, 30) {
            if (node.minimum()..node.minimum() + 60).contains(&measured(node, packet, offset)) {
                return;
            }
            packet[offset + usize::from(place)] = random.byte();
        }
    }
}

/// Makes the key fit a row, of those that lead to a node in most cases.
fn put_key(random: &mut Random, node: &Node, packet: &mut [u8], offset: usize) {
    let onward: Vec<Row> = node
        .rows
        .iter()
        .copied()
        .filter(|row| matches!(row.target, Target::Node(_)))
        .collect();
    let row = if onward.is_empty() || random.chance(12) {
        random.pick(&node.rows)
    } else {
        random.pick(&onward)
    };
    let (value, mask) = match row.pattern {
        Pattern::Ternary { value, mask } => (value, mask),
        Pattern::Range { low, high } => {
            let inner = usize::from(low) + random.below(usize::from(high - low) + 1);
            let number = random.pick(&[usize::from(low), usize::from(high), inner]) as u32;
            (number << 16, 0xFFFF_0000)
        }
    };
    for (at, &place) in node.places.iter().enumerate() {
        let byte = &mut packet[offset + usize::from(place)];
        *byte = (*byte & !mask.to_be_bytes()[at]) | value.to_be_bytes()[at];
    }
}
