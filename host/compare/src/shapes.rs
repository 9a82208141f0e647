//! Random graphs, and plans for them.

use crate::graph::{
    first_covered, Graph, Length, Node, Pattern, Row, Target, MINIMUMS, MOST_NODES, MOST_ROWS,
};
use crate::plan::keeps_rules;
use crate::random::Random;

/// What a random graph is like. Shares are of a hundred.
#[derive(Clone, Copy)]
struct Shape {
    nodes: usize,
    most_rows: usize,
    most_places: usize,
    /// Nodes that count their length.
    counted: usize,
    /// Nodes with ranges, of those that can have them.
    ranges: usize,
    /// Rows that lead to a node.
    onward: usize,
    /// Of these, rows that lead to the very next one.
    next: usize,
    /// Nodes with a last row that fits every key.
    otherwise: usize,
}

const COMMON: Shape = Shape {
    nodes: 1,
    most_rows: 6,
    most_places: 4,
    counted: 35,
    ranges: 30,
    onward: 65,
    next: 40,
    otherwise: 65,
};

const CHAINED: Shape = Shape {
    most_rows: 5,
    most_places: 3,
    counted: 8,
    next: 60,
    ..COMMON
};

const DEEP: Shape = Shape {
    most_rows: 3,
    most_places: 1,
    counted: 15,
    onward: 95,
    next: 92,
    ..COMMON
};

/// A random graph, sound but for a few covered rows: small, one for long chains, deep, or one of very many rows.
pub fn graph(random: &mut Random) -> Graph {
    let shape = match random.weighted(&[50, 30, 14, 6]) {
        0 => Shape {
            nodes: random.between(1, 7),
            ..COMMON
        },
        1 => Shape {
            nodes: random.between(2, 10),
            ..CHAINED
        },
        2 => Shape {
            nodes: random.between(16, MOST_NODES),
            ..DEEP
        },
        _ => return many_rows(random),
    };
    Graph {
        nodes: (0..shape.nodes)
            .map(|node| random_node(random, &shape, node))
            .collect(),
    }
}

/// A graph that needs about as many rows as the store has, or far more.
fn many_rows(random: &mut Random) -> Graph {
    if random.chance(40) {
        let nodes = random.between(3, 8);
        return Graph {
            nodes: (0..nodes)
                .map(|node| wide_node(random, node, nodes))
                .collect(),
        };
    }
    let mut nodes: Vec<Node> = (0..MOST_NODES).map(full_node).collect();
    let one = &mut nodes[random.below(MOST_NODES)];
    if random.chance(50) {
        // 15 blocks up to 0x7FFF, and one behind for each bit that is set: 511 to 514 rows in all.
        let high = 0x7FFF + random.pick(&[0, 1, 3, 7]);
        one.rows = vec![Row {
            pattern: Pattern::Range { low: 1, high },
            target: one.rows[0].target,
        }];
    } else {
        one.rows.truncate(random.between(1, MOST_ROWS));
    }
    Graph { nodes }
}

/// A node of 16 rows, which all lead to the next node.
fn full_node(node: usize) -> Node {
    let target = if node + 1 < MOST_NODES {
        Target::Node(node as u8 + 1)
    } else {
        Target::Done
    };
    let ternary = |row: u32| Pattern::Ternary {
        value: row << 24,
        mask: 0xFF00_0000,
    };
    Node {
        kind: 10,
        length: Length::Fixed(4),
        places: vec![0, 1],
        rows: (0..MOST_ROWS as u32)
            .map(|row| Row {
                pattern: ternary(row),
                target,
            })
            .collect(),
    }
}

/// A node of ranges, each of many blocks.
fn wide_node(random: &mut Random, node: usize, nodes: usize) -> Node {
    let rows = random.between(8, MOST_ROWS) as u16;
    let target = if node + 1 < nodes {
        Target::Node(node as u8 + 1)
    } else {
        Target::Done
    };
    let range = |row: u16| Pattern::Range {
        low: rows - row,
        high: 0xFFFF - (rows - row),
    };
    Node {
        kind: 10,
        length: Length::Fixed(2),
        places: vec![0, 1],
        rows: (0..rows)
            .map(|row| Row {
                pattern: range(row),
                target,
            })
            .collect(),
    }
}

fn random_node(random: &mut Random, shape: &Shape, node: usize) -> Node {
    let kind = random.below(MINIMUMS.len());
    let counted = random.chance(shape.counted);
    let length = random_length(random, MINIMUMS[kind], counted);
    let near = MINIMUMS[kind] + 4;
    let count = random.between(0, shape.most_places);
    let places: Vec<u8> = (0..count).map(|_| random_place(random, near)).collect();
    let rows = random_rows(random, shape, node, count);
    Node {
        kind: kind as u8,
        length,
        places,
        rows,
    }
}

/// Rows of one sort. Those that an earlier one covers are left out, but for a few nodes, so that what counts as covered
/// is not this program's word alone.
fn random_rows(random: &mut Random, shape: &Shape, node: usize, places: usize) -> Vec<Row> {
    let ranges = places >= 2 && random.chance(shape.ranges);
    let lax = random.chance(1);
    let mut patterns = Vec::new();
    for _ in 0..random.between(1, shape.most_rows) {
        patterns.push(if ranges {
            random_range(random)
        } else {
            random_ternary(random, places)
        });
    }
    if random.chance(shape.otherwise) {
        let every_key = Pattern::Ternary { value: 0, mask: 0 };
        patterns.push(if ranges {
            Pattern::Range {
                low: 0,
                high: 0xFFFF,
            }
        } else {
            every_key
        });
    }
    let mut rows = Vec::new();
    for pattern in patterns {
        rows.push(Row {
            pattern,
            target: random_target(random, shape, node),
        });
        if first_covered(&rows).is_some() && !lax {
            rows.pop();
        }
    }
    rows
}

fn random_length(random: &mut Random, minimum: usize, counted: bool) -> Length {
    if counted {
        return Length::Counted {
            place: random_place(random, minimum),
            mask: random.pick(&[0x0F, 0xF0, 0xFF, 0x20, 0x07, 0])
                | if random.chance(10) { random.byte() } else { 0 },
            shift: random.pick(&[0, 0, 4, 4, 5, 1, 7, 2, 3, 6]),
            unit: random.between(1, 8) as u8,
            base: if random.chance(50) {
                minimum as u8
            } else {
                random.below(30) as u8
            },
        };
    }
    let longest = if random.chance(5) { 255 } else { minimum + 6 };
    Length::Fixed(if random.chance(60) {
        minimum
    } else {
        random.between(minimum, longest)
    } as u8)
}

/// A place, mostly among the first bytes.
fn random_place(random: &mut Random, near: usize) -> u8 {
    (if random.chance(92) {
        random.below(near)
    } else {
        random.below(64)
    }) as u8
}

fn random_ternary(random: &mut Random, places: usize) -> Pattern {
    let (mut value, mut mask) = (0, 0);
    for place in 0..4 {
        let drawn = [random.byte(), random.byte()];
        let bits = random.pick(&[0xFF, 0xFF, 0xFF, 0xF0, 0x0F, 0x80, 0x00, 0x00, drawn[0]]);
        let bits = if place < places { bits } else { 0 };
        let byte = random.pick(&[0x00, 0x01, 0x08, 0x81, 0xFF, drawn[1]]);
        mask = mask << 8 | u32::from(bits);
        value = value << 8 | u32::from(byte & bits);
    }
    Pattern::Ternary { value, mask }
}

fn random_range(random: &mut Random) -> Pattern {
    let one = random.two_bytes();
    let other = match random.below(5) {
        0 => one,
        1 => one.saturating_add(random.two_bytes() & 0xFF),
        2 => 0,
        3 => 0xFFFF,
        _ => random.two_bytes(),
    };
    Pattern::Range {
        low: one.min(other),
        high: one.max(other),
    }
}

fn random_target(random: &mut Random, shape: &Shape, node: usize) -> Target {
    if node + 1 < shape.nodes && random.chance(shape.onward) {
        let near = random.chance(shape.next);
        return Target::Node(if near {
            node + 1
        } else {
            random.between(node + 1, shape.nodes - 1)
        } as u8);
    }
    random.pick(&[Target::Done, Target::Done, Target::Dropped])
}

/// Random chains for a graph's nodes that keep the rules.
pub fn lawful_chains(random: &mut Random, graph: &Graph) -> Vec<Vec<u8>> {
    let share = random.pick(&[15, 60, 90]);
    (0..graph.nodes.len())
        .map(|node| {
            if random.chance(share) {
                lawful_chain(random, graph, node)
            } else {
                Vec::new()
            }
        })
        .collect()
}

/// The longest chain that keeps the rules, of what some random steps make.
fn lawful_chain(random: &mut Random, graph: &Graph, node: usize) -> Vec<u8> {
    let mut chain = followed_chain(random, graph, node);
    while !keeps_rules(graph, node, &chain) {
        chain.pop();
    }
    chain
}

/// A chain along the rows of a graph, whatever the lengths and the lookup bytes are.
fn followed_chain(random: &mut Random, graph: &Graph, node: usize) -> Vec<u8> {
    let mut chain: Vec<u8> = Vec::new();
    let mut last = node;
    for _ in 0..random.between(2, 6) {
        let row = random.pick(&graph.nodes[last].rows);
        if let (Target::Node(next), true) = (row.target, chain.len() < 3) {
            chain.push(next);
            last = usize::from(next);
        }
    }
    chain
}

/// Random chains, most of which break a rule: of any nodes, or of nodes that follow each other.
pub fn any_chains(random: &mut Random, graph: &Graph) -> Vec<Vec<u8>> {
    let mut chains = lawful_chains(random, graph);
    for _ in 0..random.between(1, 2) {
        let node = random.below(chains.len());
        chains[node] = if random.chance(50) {
            followed_chain(random, graph, node)
        } else {
            let most = random.pick(&[chains.len(), chains.len() + 1, 256]);
            let count = random.between(1, 3);
            (0..count).map(|_| random.below(most) as u8).collect()
        };
    }
    chains
}
