//! Reading by turns (docs/TURNS.md): one question to the rows a turn.

use crate::answer::{Ending, Mark, Reading};
use crate::graph::Graph;
use crate::plan::{headers, window, Plan};
use crate::rows::{Next, StoreRow, CHAIN_STATE};
use crate::walk::{checked, measured};

/// A packet as it was read, how many questions that took, and how many of them took a chain in one look.
pub struct Turns {
    pub reading: Reading,
    pub questions: usize,
    pub chains: usize,
}

/// Reads a packet by the rows of a graph and a plan.
pub fn turns(graph: &Graph, plan: &Plan, rows: &[StoreRow], packet: &[u8]) -> Turns {
    let (mut node, mut offset) = (0, 0);
    let (mut marks, mut questions, mut chains) = (Vec::new(), 0, 0);
    loop {
        let chain = chain_in_sight(graph, plan, node, packet.len() - offset);
        if chain.is_empty() {
            if let Err(ending) = checked(&graph.nodes[usize::from(node)], packet, offset) {
                let reading = Reading::refused(marks, ending, node, offset);
                return Turns {
                    reading,
                    questions,
                    chains,
                };
            }
        }
        questions += 1;
        chains += usize::from(!chain.is_empty());
        let (headers, next) = asked(graph, rows, (node, chain), packet, offset);
        marks.extend(passed(graph, (node, chain), headers, packet, offset));
        if let Next::Node(next) = next {
            node = next;
            offset = marks
                .last()
                .map_or(0, |last: &Mark| last.offset + last.length);
        } else {
            return Turns {
                reading: Reading::behind(marks, ending_of(next)),
                questions,
                chains,
            };
        }
    }
}

/// How a read ends that does not go on.
fn ending_of(next: Next) -> Ending {
    match next {
        Next::Done => Ending::Done,
        Next::Dropped => Ending::Dropped,
        Next::None | Next::Node(_) => Ending::Unfit,
    }
}

/// A node, and the chain that is taken with it.
type Look<'a> = (u8, &'a [u8]);

/// One question: the action beside the first row that fits. If none does, the node's header is passed and no more.
fn asked(
    graph: &Graph,
    rows: &[StoreRow],
    look: Look,
    packet: &[u8],
    offset: usize,
) -> (usize, Next) {
    let state = if look.1.is_empty() {
        look.0
    } else {
        CHAIN_STATE + look.0
    };
    let key = key(graph, look, packet, offset);
    let row = rows.iter().find(|row| row.fits(state, &key));
    row.map_or((1, Next::None), |row| (row.headers, row.next))
}

/// The chain of a node, if the packet has the window's bytes left; else none.
fn chain_in_sight<'a>(graph: &Graph, plan: &'a Plan, node: u8, left: usize) -> &'a [u8] {
    let chain = &plan.chains[usize::from(node)];
    if chain.is_empty() || left < window(graph, node, chain) {
        &[]
    } else {
        chain
    }
}

/// The lookup bytes of a node and its chain, then zeros.
fn key(graph: &Graph, (node, chain): Look, packet: &[u8], offset: usize) -> [u8; 8] {
    let (mut key, mut count, mut begin) = ([0; 8], 0, offset);
    for header in headers(graph, node, chain) {
        for &place in &header.places {
            key[count] = packet[begin + usize::from(place)];
            count += 1;
        }
        begin += header.fixed_length().unwrap_or(0);
    }
    key
}

/// The marks of the headers that an action passes.
fn passed(
    graph: &Graph,
    (node, chain): Look,
    count: usize,
    packet: &[u8],
    offset: usize,
) -> Vec<Mark> {
    let mut begin = offset;
    let mut marks = Vec::new();
    for node in std::iter::once(node)
        .chain(chain.iter().copied())
        .take(count)
    {
        let header = &graph.nodes[usize::from(node)];
        let length = measured(header, packet, begin);
        marks.push(Mark {
            node,
            kind: header.kind,
            offset: begin,
            length,
        });
        begin += length;
    }
    marks
}

#[cfg(test)]
mod tests {
    use super::*;
    use crate::walk::walk;
    use crate::{graph, plan, rows, samples};

    fn questions(plan: &[u8]) -> Vec<usize> {
        let graph = graph::read(&samples::four_nodes()).expect("the file is accepted");
        let plan = plan::read(plan, &graph).expect("the plan is accepted");
        let rows = rows::rows(&graph, &plan);
        let packets = std::iter::once(samples::four_headers()).chain(samples::other_packets());
        let mut questions = Vec::new();
        for packet in packets {
            let read = turns(&graph, &plan, &rows, &packet);
            assert_eq!(read.reading, walk(&graph, &packet));
            questions.push(read.questions);
        }
        questions
    }

    #[test]
    fn the_questions_are_those_of_the_table() {
        assert_eq!(questions(&[0; 16]), [4, 4, 3, 1, 2, 1, 0, 2, 1]);
        assert_eq!(questions(&samples::tag_plan()), [3, 3, 2, 1, 1, 1, 0, 1, 1]);
    }

    #[test]
    fn a_packet_that_is_cut_takes_the_questions_of_the_calls_page() {
        let graph = graph::read(&samples::four_nodes()).expect("the file is accepted");
        let plan = plan::read(&samples::tag_plan(), &graph).expect("the plan is accepted");
        let rows = rows::rows(&graph, &plan);
        for (length, ending, marks, questions) in [
            (58, 0, 4, 3),
            (50, 13, 3, 2),
            (18, 13, 2, 1),
            (17, 13, 1, 1),
        ] {
            let read = turns(&graph, &plan, &rows, &samples::four_headers()[..length]);
            assert_eq!(
                (
                    read.reading.ending as u8,
                    read.reading.marks.len(),
                    read.questions
                ),
                (ending, marks, questions)
            );
        }
    }
}
