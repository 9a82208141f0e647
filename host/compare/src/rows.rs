//! The rows of a store that stand for a graph and a plan (docs/PLANS.md), and how many they are.

use crate::graph::{Graph, Node, Pattern, Target};
use crate::plan::Plan;

/// The rows that the store can have.
pub const CAPACITY: usize = 512;
/// The state of a node with its chain is the node's number and this.
pub const CHAIN_STATE: u8 = 32;

/// A value and a mask for a byte of a key.
type Bits = (u8, u8);

/// Where a row of the store leads.
#[derive(Clone, Copy, Debug, PartialEq, Eq)]
pub enum Next {
    Node(u8),
    Done,
    Dropped,
    None,
}

/// A row with its action: how many headers are passed, and what comes then.
#[derive(Clone, Debug, PartialEq, Eq)]
pub struct StoreRow {
    pub state: u8,
    pub bits: Vec<Bits>,
    pub headers: usize,
    pub next: Next,
}

impl StoreRow {
    /// Whether a question fits: the bytes behind the row's own are not looked at.
    pub fn fits(&self, state: u8, key: &[u8; 8]) -> bool {
        self.state == state
            && self
                .bits
                .iter()
                .zip(key)
                .all(|(&(value, mask), &byte)| byte & mask == value)
    }
}

/// All rows, in order: the nodes' own, then those of nodes with chains.
pub fn rows(graph: &Graph, plan: &Plan) -> Vec<StoreRow> {
    let mut rows = Vec::new();
    for node in 0..graph.nodes.len() as u8 {
        rows.extend(state_rows(graph, node, node, &[]));
    }
    for (node, chain) in (0..).zip(&plan.chains) {
        if !chain.is_empty() {
            rows.extend(state_rows(graph, CHAIN_STATE + node, node, chain));
        }
    }
    rows
}

/// The rows of a node and a chain, under a state.
fn state_rows(graph: &Graph, state: u8, node: u8, chain: &[u8]) -> Vec<StoreRow> {
    let mut rows = Vec::new();
    for (bits, target) in pieces(&graph.nodes[usize::from(node)]) {
        match chain.split_first() {
            Some((&next, rest)) if target == Target::Node(next) => {
                for behind in state_rows(graph, state, next, rest) {
                    let bits = bits.iter().copied().chain(behind.bits).collect();
                    rows.push(StoreRow {
                        state,
                        bits,
                        headers: behind.headers + 1,
                        next: behind.next,
                    });
                }
                rows.push(StoreRow {
                    state,
                    bits,
                    headers: 2,
                    next: Next::None,
                });
            }
            _ => rows.push(StoreRow {
                state,
                bits,
                headers: 1,
                next: next_of(target),
            }),
        }
    }
    rows
}

fn next_of(target: Target) -> Next {
    match target {
        Target::Node(node) => Next::Node(node),
        Target::Done => Next::Done,
        Target::Dropped => Next::Dropped,
    }
}

/// The pieces of a node, in order: ternary rows, and the blocks of range rows.
fn pieces(node: &Node) -> Vec<(Vec<Bits>, Target)> {
    let mut pieces = Vec::new();
    for row in &node.rows {
        let pairs = match row.pattern {
            Pattern::Ternary { value, mask } => vec![(value, mask)],
            Pattern::Range { low, high } => {
                let high_half =
                    |(value, mask): (u16, u16)| (u32::from(value) << 16, u32::from(mask) << 16);
                split(low, high).into_iter().map(high_half).collect()
            }
        };
        for (value, mask) in pairs {
            let bits = value.to_be_bytes().into_iter().zip(mask.to_be_bytes());
            pieces.push((bits.take(node.places.len()).collect(), row.target));
        }
    }
    pieces
}

/// The blocks of a range, each a value and a mask (docs/PATTERNS.md).
pub fn split(low: u16, high: u16) -> Vec<(u16, u16)> {
    let (mut from, end) = (u32::from(low), u32::from(high) + 1);
    let mut blocks = Vec::new();
    while from < end {
        let fits = |&power: &u32| from % (1 << power) == 0 && from + (1 << power) <= end;
        let power = (0..=16)
            .rev()
            .find(fits)
            .expect("a block of one number fits");
        blocks.push((from as u16, !((1u32 << power) - 1) as u16));
        from += 1 << power;
    }
    blocks
}

/// How many rows graph and plan need, by the formula, which lists none.
pub fn count(graph: &Graph, plan: &Plan) -> u64 {
    let mut sum = 0;
    for (node, chain) in (0..).zip(&plan.chains) {
        sum += state_count(graph, node, &[]);
        if !chain.is_empty() {
            sum += state_count(graph, node, chain);
        }
    }
    sum
}

fn state_count(graph: &Graph, node: u8, chain: &[u8]) -> u64 {
    let rows = &graph.nodes[usize::from(node)].rows;
    let all: u64 = rows.iter().map(|row| blocks(row.pattern)).sum();
    match chain.split_first() {
        None => all,
        Some((&next, rest)) => {
            let onward = rows.iter().filter(|row| row.target == Target::Node(next));
            all + onward.map(|row| blocks(row.pattern)).sum::<u64>()
                * state_count(graph, next, rest)
        }
    }
}

fn blocks(pattern: Pattern) -> u64 {
    match pattern {
        Pattern::Ternary { .. } => 1,
        Pattern::Range { low, high } => split(low, high).len() as u64,
    }
}

#[cfg(test)]
mod tests {
    use super::*;
    use crate::{graph, plan, samples};

    #[test]
    fn the_sample_has_the_rows_that_are_drawn_out() {
        let graph = graph::read(&samples::four_nodes()).expect("the file is accepted");
        let plan = plan::read(&samples::tag_plan(), &graph).expect("the plan is accepted");
        let rows = rows(&graph, &plan);
        assert_eq!(count(&graph, &plan), 13);
        let states: Vec<u8> = rows.iter().map(|row| row.state).collect();
        assert_eq!(states, [0, 0, 0, 1, 1, 2, 2, 3, 32, 32, 32, 32, 32]);
        let tag = |bits: &[Bits]| [&[(0x81, 0xFF), (0x00, 0xFF)], bits].concat();
        let row = |bits, headers, next| StoreRow {
            state: 32,
            bits,
            headers,
            next,
        };
        assert_eq!(
            rows[8],
            row(tag(&[(0x08, 0xFF), (0x00, 0xFF)]), 2, Next::Node(2))
        );
        assert_eq!(rows[9], row(tag(&[(0, 0), (0, 0)]), 2, Next::Done));
        assert_eq!(rows[10], row(tag(&[]), 2, Next::None));
        assert_eq!(
            rows[11],
            row(vec![(0x08, 0xFF), (0x00, 0xFF)], 1, Next::Node(2))
        );
        assert_eq!(rows[12], row(vec![(0, 0), (0, 0)], 1, Next::Dropped));
    }

    #[test]
    fn the_ranges_are_split_as_drawn_out() {
        assert_eq!(split(0, 0x05FF), [(0x0000, 0xFC00), (0x0400, 0xFE00)]);
        assert_eq!(split(0, 0xFFFF), [(0, 0)]);
        let most = split(1, 0xFFFE);
        assert_eq!(most.len(), 30);
        assert_eq!(most[..3], [(1, 0xFFFF), (2, 0xFFFE), (4, 0xFFFC)]);
        assert_eq!(
            most[14..17],
            [(0x4000, 0xC000), (0x8000, 0xC000), (0xC000, 0xE000)]
        );
        assert_eq!(most[28..], [(0xFFFC, 0xFFFE), (0xFFFE, 0xFFFF)]);
    }
}
