//! Random cases: a graph file, a plan, a packet and an area, each sound or faulty by itself.

use crate::encode::{graph_file, plan_file};
use crate::faults::{damage, faulty_file};
use crate::graph::{self, Graph};
use crate::own::SHORTEST_AREA;
use crate::packets::packet;
use crate::random::Random;
use crate::shapes::{any_chains, graph as random_graph, lawful_chains};

/// The inputs of a call. The area is the middle of `room`, with `MARGIN` bytes before and behind it.
pub struct Case {
    pub graph: Vec<u8>,
    pub plan: Vec<u8>,
    pub packet: Vec<u8>,
    pub room: Vec<u8>,
}

/// How many bytes stand before the area, and behind it. A call has to leave them.
pub const MARGIN: usize = 16;

/// How many packets each pair of a graph and a plan has.
const PACKETS: usize = 6;

/// Makes cases one after the other; the graphs of some files are among the random ones.
pub struct Cases {
    random: Random,
    seeds: Vec<Graph>,
    base: Graph,
    graph: Vec<u8>,
    plan: Vec<u8>,
    left: usize,
}

impl Cases {
    /// Cases of a seed. Files that are no graphs are passed over.
    pub fn new(seed: u64, files: &[Vec<u8>]) -> Cases {
        let seeds: Vec<Graph> = files
            .iter()
            .filter_map(|file| graph::read(file).ok())
            .collect();
        let mut random = Random::new(seed);
        let base = random_graph(&mut random);
        Cases {
            random,
            seeds,
            base,
            graph: Vec::new(),
            plan: Vec::new(),
            left: 0,
        }
    }

    /// The next case. Some packets in a row have the same graph file and plan.
    pub fn next(&mut self) -> Case {
        if self.left == 0 {
            self.left = PACKETS;
            self.base = self.next_base();
            self.graph = self.next_graph();
            self.plan = self.next_plan();
        }
        self.left -= 1;
        let packet = packet(&mut self.random, &self.base);
        let length = self.next_length();
        let room = self.random.bytes(length + 2 * MARGIN);
        Case {
            graph: self.graph.clone(),
            plan: self.plan.clone(),
            packet,
            room,
        }
    }

    /// The length of an area: long enough in most cases, often just so.
    fn next_length(&mut self) -> usize {
        let random = &mut self.random;
        match random.weighted(&[75, 20, 4, 1]) {
            0 => random.between(SHORTEST_AREA, 260),
            1 => SHORTEST_AREA,
            2 => random.below(SHORTEST_AREA),
            _ => SHORTEST_AREA - 1,
        }
    }

    /// A sound graph.
    fn next_base(&mut self) -> Graph {
        if !self.seeds.is_empty() && self.random.chance(6) {
            let place = self.random.below(self.seeds.len());
            return self.seeds[place].clone();
        }
        random_graph(&mut self.random)
    }

    /// The sound graph's file, or one with faults or damaged bytes.
    fn next_graph(&mut self) -> Vec<u8> {
        let random = &mut self.random;
        let mut file = graph_file(&self.base);
        match random.weighted(&[76, 11, 7, 6]) {
            0 => {}
            1 => {
                let number = random.between(1, 6) as u8;
                file = faulty_file(random, &self.base, &[number]);
            }
            2 => {
                let numbers = [
                    random.between(1, 6) as u8,
                    random.between(2, 6) as u8,
                    random.between(3, 6) as u8,
                ];
                file = faulty_file(random, &self.base, &numbers);
            }
            _ => damage(random, &mut file),
        }
        file
    }

    /// Chains that keep the rules, none, some that break them, damaged bytes, or the wrong length.
    fn next_plan(&mut self) -> Vec<u8> {
        let random = &mut self.random;
        let mut plan = plan_file(&lawful_chains(random, &self.base));
        match random.weighted(&[64, 16, 8, 7, 5]) {
            0 => {}
            1 => plan.fill(0),
            2 => plan = plan_file(&any_chains(random, &self.base)),
            3 => {
                let place = random.below(plan.len());
                plan[place] = random.pick(&[0, 1, 2, 3, 4, 5, 32, 255]);
            }
            _ => plan.resize(
                random.pick(&[0, 1, plan.len() - 1, plan.len() + 1, plan.len() + 4, 200]),
                0,
            ),
        }
        plan
    }
}
