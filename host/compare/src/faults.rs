//! Faults in graph files and plans: one of each sort, and damaged bytes.

use crate::encode::graph_file;
use crate::graph::{Graph, Length, Pattern, Row, Target};
use crate::graph::{LONGEST_FILE, MOST_NODES, MOST_ROWS, RECORD_HEAD, ROW_BYTES};
use crate::random::Random;

/// The file of a sound graph with faults of the numbers given.
pub fn faulty_file(random: &mut Random, graph: &Graph, numbers: &[u8]) -> Vec<u8> {
    let mut graph = graph.clone();
    let has = |number: u8| numbers.contains(&number);
    if has(4) {
        wrong_target(random, &mut graph);
    }
    if has(5) {
        covered(random, &mut graph);
    }
    if has(6) {
        too_short(random, &mut graph);
    }
    if has(3) && random.chance(15) {
        wrong_row_count(random, &mut graph);
    }
    let mut file = graph_file(&graph);
    if has(3) {
        wrong_byte(random, &mut file);
    }
    if has(2) {
        wrong_pair(random, &mut file);
    }
    if has(1) {
        wrong_shape(random, &mut file);
    }
    file
}

/// 4: a row leads back, to its own node, or past the graph.
fn wrong_target(random: &mut Random, graph: &mut Graph) {
    let (node, count) = (random.below(graph.nodes.len()), graph.nodes.len());
    let row = random.below(graph.nodes[node].rows.len());
    let next = random.pick(&[0, node, count, 255]);
    graph.nodes[node].rows[row].target = Target::Node(next as u8);
}

/// 5: a row that takes no key but those of another one, behind that one.
fn covered(random: &mut Random, graph: &mut Graph) {
    let node = random.below(graph.nodes.len());
    let one = &mut graph.nodes[node];
    let row = random.pick(&one.rows);
    let pattern = match row.pattern {
        Pattern::Range { low, high } => {
            let inner = low + random.below(usize::from(high - low) + 1) as u16;
            Pattern::Range { low: inner, high }
        }
        Pattern::Ternary { value, mask } => {
            let shown = if one.places.is_empty() {
                0
            } else {
                u32::MAX << (32 - 8 * one.places.len())
            };
            let more = random.four_bytes() & shown & !mask;
            Pattern::Ternary {
                value: value | (random.four_bytes() & more),
                mask: mask | more,
            }
        }
    };
    if one.rows.len() == MOST_ROWS {
        one.rows.pop();
    }
    one.rows.push(Row {
        pattern,
        target: Target::Done,
    });
}

/// 6: a fixed length under the fewest bytes of the kind.
fn too_short(random: &mut Random, graph: &mut Graph) {
    let node = random.below(graph.nodes.len());
    let one = &mut graph.nodes[node];
    if one.minimum() == 1 {
        one.kind = random.below(10) as u8;
    }
    let longest = one.minimum() - 1;
    one.length = Length::Fixed(if random.chance(50) {
        longest
    } else {
        random.between(1, longest)
    } as u8);
}

/// 3: no row, or more than 16.
fn wrong_row_count(random: &mut Random, graph: &mut Graph) {
    let node = random.below(graph.nodes.len());
    let rows = &mut graph.nodes[node].rows;
    let count = random.pick(&[0, 0, 17, 18, 255]);
    let row = rows[0];
    rows.resize(count, row);
}

/// For each byte in front of the rows, values at the ends of its ranges, inside and out.
const NEAR: [&[u8]; RECORD_HEAD] = [
    &[10, 11, 255],
    &[0, 1, 2],
    &[0, 63, 64],
    &[0, 1, 255],
    &[0, 1, 7, 8, 8, 8],
    &[0, 1, 8, 9, 9, 9],
    &[0, 1, 255],
    &[1],
    &[0, 1, 2, 4, 5],
    &[1, 63, 64],
    &[1, 63, 64],
    &[1, 63, 64],
    &[1, 63, 64],
    &[0, 1, 2],
    &[0, 17],
    &[1],
];

/// 3: a byte of a record with another value, often just out of its range.
fn wrong_byte(random: &mut Random, file: &mut [u8]) {
    let pair = 2 + 4 * random.below(usize::from(file[0]));
    let begin = usize::from(u16::from_be_bytes([file[pair], file[pair + 1]]));
    let length = usize::from(u16::from_be_bytes([file[pair + 2], file[pair + 3]]));
    let record = &mut file[begin..begin + length];
    let at = if random.chance(50) {
        random.below(RECORD_HEAD)
    } else {
        random.below(length)
    };
    let drawn = random.byte();
    if at < RECORD_HEAD {
        record[at] = if random.chance(80) {
            random.pick(NEAR[at])
        } else {
            drawn
        };
        return;
    }
    wrong_row_byte(random, &mut record[RECORD_HEAD..], at - RECORD_HEAD);
}

/// 3: a byte of a row; in a value or a mask, one bit more, of both in some cases.
fn wrong_row_byte(random: &mut Random, rows: &mut [u8], at: usize) {
    let bit = 1 << random.below(8);
    match at % ROW_BYTES {
        place @ 0..=7 => {
            rows[at] |= bit;
            if place < 4 && random.chance(50) {
                rows[at + 4] |= bit;
            }
        }
        8 => rows[at] = random.pick(&[0, 1, 2, 3, 255]),
        _ => rows[at] = random.pick(&[0, 1, 31, 32, 255]),
    }
}

/// 2: a wrong pair, pairs that are missing or exchanged, or a file that ends elsewhere.
fn wrong_pair(random: &mut Random, file: &mut Vec<u8>) {
    let count = usize::from(file[0]);
    let pair = 2 + 4 * random.below(count);
    match random.below(6) {
        0 => file[pair + random.below(4)] ^= 1 << random.below(8),
        1 => file.truncate(random.between(2, 1 + 4 * count)),
        2 => file.truncate(random.between(2, file.len() - 1)),
        3 => {
            let more = random.between(1, 12);
            file.extend(random.bytes(more));
        }
        4 => {
            let other = 2 + 4 * random.below(count);
            (0..4).for_each(|byte| file.swap(pair + byte, other + byte));
        }
        _ => file[pair + 3] = file[pair + 3].wrapping_add(10),
    }
}

/// 1: too short, too long, a wrong count of nodes, or a byte 1 that is not zero.
fn wrong_shape(random: &mut Random, file: &mut Vec<u8>) {
    match random.below(6) {
        0 => file.truncate(random.below(2)),
        1 => file.resize(LONGEST_FILE + 1, 0),
        2 => file.resize(LONGEST_FILE + random.between(1, 300), 7),
        3 => file[0] = 0,
        4 => file[0] = random.between(MOST_NODES + 1, 255) as u8,
        _ => file[1] = random.between(1, 255) as u8,
    }
}

/// Changes, drops or puts in some bytes, or cuts off or adds some at the end.
pub fn damage(random: &mut Random, bytes: &mut Vec<u8>) {
    for _ in 0..random.between(1, 3) {
        let place = random.below(bytes.len() + 1);
        match random.below(8) {
            0 => bytes.truncate(place),
            1 => {
                let more = random.between(1, 40);
                bytes.extend(random.bytes(more));
            }
            2 => bytes.insert(place, random.byte()),
            3 if place < bytes.len() => drop(bytes.remove(place)),
            4 | 5 if place < bytes.len() => bytes[place] = random.byte(),
            _ if place < bytes.len() => bytes[place] ^= 1 << random.below(8),
            _ => {}
        }
    }
}
