//! Counts of what the cases met, and the inputs of those that differ.

use crate::cases::{Case, MARGIN};
use crate::graph::MOST_NODES;
use crate::own::Notes;
use crate::rows::CAPACITY;

/// The numbers that a call can answer, and what each says.
const NUMBERS: [(u8, &str); 16] = [
    (0, "done"),
    (1, "graph file: size, node count or byte 1"),
    (2, "graph file: a pair"),
    (3, "graph file: a byte of a record"),
    (4, "graph: a row to no later node"),
    (5, "graph: a covered row"),
    (6, "graph: a fixed length under the minimum"),
    (7, "plan: its length, a count or an unused byte"),
    (8, "plan: a chain that breaks a rule"),
    (9, "rows: more than the store has"),
    (10, "packet: more than 9,600 bytes"),
    (11, "area: fewer than 198 bytes"),
    (13, "ended: cut"),
    (14, "ended: short"),
    (15, "ended: no row fits"),
    (16, "ended: dropped"),
];

/// How many differences are printed with their inputs.
const SHOWN: usize = 3;

/// What was met beside the numbers.
#[derive(Default)]
struct Met {
    chains: usize,
    saved: usize,
    all_nodes: usize,
    full: usize,
    one_too_many: usize,
    very_many: usize,
}

#[derive(Default)]
pub struct Report {
    cases: usize,
    numbers: [usize; 17],
    met: Met,
    differences: usize,
}

impl Report {
    /// Counts a case by its right answer.
    pub fn count(&mut self, answer: u64, notes: Notes) {
        let number = (answer & 0xFF) as usize;
        self.cases += 1;
        self.numbers[number] += 1;
        self.met.chains += usize::from(notes.chains > 0);
        self.met.saved += usize::from(notes.questions < notes.marks);
        self.met.all_nodes += usize::from(notes.marks == MOST_NODES);
        self.met.full += usize::from(number != 9 && notes.rows == CAPACITY as u64);
        self.met.one_too_many += usize::from(number == 9 && notes.rows == CAPACITY as u64 + 1);
        self.met.very_many += usize::from(number == 9 && notes.rows > 65_535);
    }

    /// Counts a difference, and prints the first ones: inputs, both answers and both areas.
    pub fn differ(&mut self, case: &Case, what: &str, answers: [u64; 2], rooms: [&[u8]; 2]) {
        self.differences += 1;
        if self.differences > SHOWN {
            return;
        }
        let area = |room: &[u8]| hex(&room[MARGIN..room.len() - MARGIN]);
        println!("case {}: {what}", self.cases);
        println!("  graph           {}", hex(&case.graph));
        println!("  plan            {}", hex(&case.plan));
        println!("  packet          {}", hex(&case.packet));
        println!("  area before     {}", area(&case.room));
        println!("  library answers {:#018x}", answers[0]);
        println!("  documents say   {:#018x}", answers[1]);
        println!("  library's area  {}", area(rooms[0]));
        println!("  documents' area {}", area(rooms[1]));
    }

    /// Prints the counts. True if no case differed and none of the counts is zero.
    pub fn print(&self, seed: u64) -> bool {
        println!("answer  what it says                                   cases");
        for (number, words) in NUMBERS {
            println!(
                "{number:6}  {words:44}  {:6}",
                self.numbers[usize::from(number)]
            );
        }
        println!("among them");
        let met = self.met_table();
        for (words, count) in met {
            println!("        {words:44}  {count:6}");
        }
        println!(
            "seed {seed}: {} cases, {} differ",
            self.cases, self.differences
        );
        let every_number = NUMBERS
            .iter()
            .all(|&(number, _)| self.numbers[usize::from(number)] > 0);
        let every_count = met.iter().all(|&(_, count)| count > 0);
        if !every_number || !every_count {
            println!("a count is zero: these cases are too few to tell");
        }
        self.differences == 0 && every_number && every_count
    }

    fn met_table(&self) -> [(&'static str, usize); 6] {
        [
            ("a chain was taken in one look", self.met.chains),
            ("fewer questions than marks", self.met.saved),
            ("32 headers marked", self.met.all_nodes),
            ("512 rows, which the store has", self.met.full),
            ("513 rows, refused by 9", self.met.one_too_many),
            ("more than 65,535 rows, refused by 9", self.met.very_many),
        ]
    }
}

fn hex(bytes: &[u8]) -> String {
    bytes.iter().map(|byte| format!("{byte:02x}")).collect()
}
