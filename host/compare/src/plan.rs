//! Plans (docs/PLANS.md): their bytes, the rules of a chain, and a chain's window.

use crate::answer::Refusal;
use crate::graph::{Graph, Node, Target};

/// The bytes of a plan for each node.
pub const CHAIN_BYTES: usize = 4;
const MOST_LOOKUP_BYTES: usize = 8;

/// For each node its chain, which may be empty.
#[derive(Clone, Debug, PartialEq, Eq)]
pub struct Plan {
    pub chains: Vec<Vec<u8>>,
}

/// Reads a plan for a graph, or answers the least refusal that applies, 7 or 8.
pub fn read(bytes: &[u8], graph: &Graph) -> Result<Plan, Refusal> {
    let count = graph.nodes.len();
    if bytes.len() != CHAIN_BYTES * count {
        return Err(Refusal::at(7, count, 0));
    }
    let mut chains = Vec::new();
    for (node, part) in bytes.chunks(CHAIN_BYTES).enumerate() {
        chains.push(chain(part).ok_or(Refusal::at(7, node, 0))?);
    }
    match (0..count).find(|&node| !keeps_rules(graph, node, &chains[node])) {
        Some(node) => Err(Refusal::at(8, node, 0)),
        None => Ok(Plan { chains }),
    }
}

/// The chain that four bytes say.
fn chain(part: &[u8]) -> Option<Vec<u8>> {
    let length = usize::from(part[0]);
    let nodes = part.get(1..=length)?;
    part[1 + length..]
        .iter()
        .all(|&byte| byte == 0)
        .then(|| nodes.to_vec())
}

/// Whether a chain of a node keeps the rules.
pub fn keeps_rules(graph: &Graph, node: usize, chain: &[u8]) -> bool {
    let mut last = &graph.nodes[node];
    let mut headers = vec![last];
    for &next in chain {
        if !last.rows.iter().any(|row| row.target == Target::Node(next)) {
            return false;
        }
        last = &graph.nodes[usize::from(next)];
        headers.push(last);
    }
    let lookup_bytes: usize = headers.iter().map(|header| header.places.len()).sum();
    let fixed = headers.iter().all(|header| header.fixed_length().is_some());
    chain.is_empty() || (fixed && lookup_bytes <= MOST_LOOKUP_BYTES)
}

/// A node and the nodes of its chain.
pub fn headers<'a>(graph: &'a Graph, node: u8, chain: &[u8]) -> Vec<&'a Node> {
    std::iter::once(node)
        .chain(chain.iter().copied())
        .map(|one| &graph.nodes[usize::from(one)])
        .collect()
}

/// The fewest bytes that hold every header and every lookup byte of a node with a chain.
pub fn window(graph: &Graph, node: u8, chain: &[u8]) -> usize {
    let (mut begin, mut window) = (0, 0);
    for header in headers(graph, node, chain) {
        for &place in &header.places {
            window = window.max(begin + usize::from(place) + 1);
        }
        begin += header
            .fixed_length()
            .expect("headers of a chain have fixed lengths");
        window = window.max(begin);
    }
    window
}

#[cfg(test)]
mod tests {
    use super::*;
    use crate::{graph, samples};

    fn refused(bytes: &[u8]) -> Refusal {
        let graph = graph::read(&samples::four_nodes()).expect("the file is accepted");
        read(bytes, &graph).expect_err("the plan is refused")
    }

    #[test]
    fn the_tag_is_a_chain_with_a_window_of_18() {
        let graph = graph::read(&samples::four_nodes()).expect("the file is accepted");
        let plan = read(&samples::tag_plan(), &graph).expect("the plan is accepted");
        assert_eq!(plan.chains[0], [1]);
        assert_eq!(window(&graph, 0, &plan.chains[0]), 18);
    }

    #[test]
    fn each_example_of_a_refusal_is_refused() {
        assert_eq!(refused(&[0; 15]), Refusal::at(7, 4, 0));
        // The chains of nodes 0 and 1, and the refusal.
        for (first, second, refusal) in [
            ([0; 4], [4, 0, 0, 0], Refusal::at(7, 1, 0)),
            ([1, 1, 0, 1], [0; 4], Refusal::at(7, 0, 0)),
            ([1, 3, 0, 0], [0; 4], Refusal::at(8, 0, 0)),
            ([1, 200, 0, 0], [0; 4], Refusal::at(8, 0, 0)),
            ([1, 2, 0, 0], [0; 4], Refusal::at(8, 0, 0)),
        ] {
            let plan = [first, second, [0; 4], [0; 4]].concat();
            assert_eq!(refused(&plan), refusal);
        }
    }
}
