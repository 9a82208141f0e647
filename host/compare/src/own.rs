//! The whole call, by the modules of this program: what has to come of it.

use crate::answer::Refusal;
use crate::packets::LONGEST_PACKET;
use crate::rows::{count, rows, CAPACITY};
use crate::turns::turns;
use crate::walk::walk;
use crate::{graph, plan};

/// The fewest bytes of an area: 6, and 6 for each of 32 marks.
pub const SHORTEST_AREA: usize = 198;

/// What a case does with the call, for the counts.
#[derive(Clone, Copy, Debug, Default)]
pub struct Notes {
    pub rows: u64,
    pub marks: usize,
    pub questions: usize,
    pub chains: usize,
    /// Whether this program's own two ways of reading, or of counting rows, differ.
    pub torn: bool,
}

/// Answers the call and writes the area, or answers the refusal and leaves it.
pub fn answer(file: &[u8], plan_file: &[u8], packet: &[u8], area: &mut [u8]) -> (u64, Notes) {
    let mut notes = Notes::default();
    match read(file, plan_file, packet, area, &mut notes) {
        Ok(ending) => (ending, notes),
        Err(refusal) => (refusal.answer(), notes),
    }
}

fn read(
    file: &[u8],
    plan_file: &[u8],
    packet: &[u8],
    area: &mut [u8],
    notes: &mut Notes,
) -> Result<u64, Refusal> {
    let graph = graph::read(file)?;
    let plan = plan::read(plan_file, &graph)?;
    notes.rows = count(&graph, &plan);
    if notes.rows > CAPACITY as u64 {
        return Err(Refusal::at(9, notes.rows.min(65_535) as usize, 0));
    }
    if packet.len() > LONGEST_PACKET {
        return Err(Refusal::at(10, 0, 0));
    }
    if area.len() < SHORTEST_AREA {
        return Err(Refusal::at(11, 0, 0));
    }
    let rows = rows(&graph, &plan);
    let read = turns(&graph, &plan, &rows, packet);
    read.reading.write(read.questions, area);
    notes.torn = walk(&graph, packet) != read.reading || rows.len() as u64 != notes.rows;
    notes.marks = read.reading.marks.len();
    notes.questions = read.questions;
    notes.chains = read.chains;
    Ok(read.reading.ending as u64)
}

#[cfg(test)]
mod tests {
    use super::*;
    use crate::samples::{four_headers, four_nodes, tag_plan};

    #[test]
    fn the_area_is_laid_out_as_drawn() {
        let told = |length: usize| {
            let mut area = [0xAA; SHORTEST_AREA];
            let packet = &four_headers()[..length];
            let (answer, _) = answer(&four_nodes(), &tag_plan(), packet, &mut area);
            (answer, area)
        };
        let laid = |bytes: &[u8]| {
            let mut area = [0xAA; SHORTEST_AREA];
            area[..bytes.len()].copy_from_slice(bytes);
            area
        };
        let four = [
            [4, 3, 3, 0, 0, 0x3A],
            [0, 0, 0, 0, 0, 0x0E],
            [1, 1, 0, 0x0E, 0, 4],
            [2, 3, 0, 0x12, 0, 0x14],
            [3, 5, 0, 0x26, 0, 0x14],
        ];
        assert_eq!(told(58), (0, laid(&four.concat())));
        let one = [[1, 1, 1, 0, 0, 0x0E], [0, 0, 0, 0, 0, 0x0E]];
        assert_eq!(told(17), (13, laid(&one.concat())));
        assert_eq!(told(0), (13, laid(&[0; 6])));
    }

    #[test]
    fn each_refusal_has_its_number_and_leaves_the_area() {
        let refused = |file: &[u8], plan: &[u8], packet: usize, room: usize| {
            let mut area = vec![0xAA; room];
            let (answer, _) = answer(file, plan, &vec![0; packet], &mut area);
            assert_eq!(area, vec![0xAA; room]);
            answer
        };
        let (graph, plan) = (four_nodes(), tag_plan());
        let mut back = graph.clone();
        back[89] = 1;
        let mut covered = graph.clone();
        covered[34..64].rotate_right(10);
        assert_eq!(refused(&[], &plan, 58, 198), 1);
        assert_eq!(refused(&back, &plan, 58, 198), 260);
        assert_eq!(refused(&covered, &plan, 58, 198), 16_777_221);
        assert_eq!(refused(&graph, &plan[..15], 58, 198), 1031);
        assert_eq!(refused(&graph, &plan, 9601, 197), 10);
        assert_eq!(refused(&graph, &plan, 9600, 197), 11);
    }
}
