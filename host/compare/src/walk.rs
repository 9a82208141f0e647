//! The plain walk (docs/WALK.md): one header at a time, straight from the graph.

use crate::answer::{Ending, Mark, Reading};
use crate::graph::{Graph, Length, Node, Target};

/// Walks a packet through a graph.
pub fn walk(graph: &Graph, packet: &[u8]) -> Reading {
    let (mut node, mut offset) = (0, 0);
    let mut marks = Vec::new();
    loop {
        let one = &graph.nodes[usize::from(node)];
        let length = match checked(one, packet, offset) {
            Ok(length) => length,
            Err(ending) => return Reading::refused(marks, ending, node, offset),
        };
        marks.push(Mark {
            node,
            kind: one.kind,
            offset,
            length,
        });
        match decide(one, packet, offset) {
            None => return Reading::behind(marks, Ending::Unfit),
            Some(Target::Dropped) => return Reading::behind(marks, Ending::Dropped),
            Some(Target::Done) => return Reading::behind(marks, Ending::Done),
            Some(Target::Node(next)) => {
                node = next;
                offset += length;
            }
        }
    }
}

/// The three checks of a step: the header's length, or how the walk ends.
pub fn checked(node: &Node, packet: &[u8], offset: usize) -> Result<usize, Ending> {
    let mut read = node.places.clone();
    if let Length::Counted { place, .. } = node.length {
        read.push(place);
    }
    if read
        .iter()
        .any(|&place| offset + usize::from(place) >= packet.len())
    {
        return Err(Ending::Cut);
    }
    let length = measured(node, packet, offset);
    if length < node.minimum() {
        return Err(Ending::Short);
    }
    if offset + length > packet.len() {
        return Err(Ending::Cut);
    }
    Ok(length)
}

/// The header's length. The byte that it is counted from lies in the packet.
pub fn measured(node: &Node, packet: &[u8], offset: usize) -> usize {
    match node.length {
        Length::Fixed(length) => usize::from(length),
        Length::Counted {
            place,
            mask,
            shift,
            unit,
            base,
        } => {
            let byte = packet[offset + usize::from(place)];
            usize::from(base) + usize::from(unit) * usize::from((byte & mask) >> shift)
        }
    }
}

/// Where the first row that fits leads. The lookup places lie in the packet.
pub fn decide(node: &Node, packet: &[u8], offset: usize) -> Option<Target> {
    let mut key = [0; 4];
    for (byte, &place) in key.iter_mut().zip(&node.places) {
        *byte = packet[offset + usize::from(place)];
    }
    let key = u32::from_be_bytes(key);
    node.rows
        .iter()
        .find(|row| row.pattern.fits(key))
        .map(|row| row.target)
}

#[cfg(test)]
mod tests {
    use super::*;
    use crate::{graph, samples};

    fn told(graph: &Graph, packet: &[u8]) -> (Vec<usize>, u8, u8, usize) {
        let reading = walk(graph, packet);
        let offsets = reading.marks.iter().map(|mark| mark.offset).collect();
        (offsets, reading.ending as u8, reading.node, reading.offset)
    }

    #[test]
    fn the_packet_that_is_drawn_out_has_four_headers() {
        let graph = graph::read(&samples::four_nodes()).expect("the file is accepted");
        let reading = walk(&graph, &samples::four_headers());
        let mark = |node, kind, offset, length| Mark {
            node,
            kind,
            offset,
            length,
        };
        assert_eq!(
            reading.marks,
            [
                mark(0, 0, 0, 14),
                mark(1, 1, 14, 4),
                mark(2, 3, 18, 20),
                mark(3, 5, 38, 20)
            ]
        );
        assert_eq!(
            (reading.ending, reading.node, reading.offset),
            (Ending::Done, 3, 58)
        );
    }

    #[test]
    fn the_other_packets_end_as_the_table_says() {
        let mut graph = graph::read(&samples::four_nodes()).expect("the file is accepted");
        let packets = samples::other_packets();
        let wanted = [
            (vec![0, 14, 18, 38], 0, 3, 58),
            (vec![0, 14, 18], 0, 2, 38),
            (vec![0], 13, 1, 14),
            (vec![0, 14], 0, 1, 18),
            (vec![0], 13, 2, 14),
            (vec![], 13, 0, 0),
            (vec![0, 14], 14, 2, 18),
            (vec![0], 16, 0, 0),
        ];
        for (packet, wanted) in packets.iter().zip(wanted) {
            assert_eq!(told(&graph, packet), wanted);
        }
        graph.nodes[0].rows.pop();
        assert_eq!(
            told(&graph, packets.last().expect("there are packets")),
            (vec![0], 15, 0, 0)
        );
    }
}
