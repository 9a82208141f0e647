//! What a call answers (docs/REFUSALS.md): refusals with their places, and the ending of a read with its marks.

/// A refusal: its number, and the places that it names, 0 where it names none.
#[derive(Clone, Copy, Debug, PartialEq, Eq)]
pub struct Refusal {
    pub number: u8,
    pub first: u16,
    pub second: u16,
}

impl Refusal {
    /// A refusal at two places.
    pub fn at(number: u8, first: usize, second: usize) -> Refusal {
        Refusal {
            number,
            first: place(first),
            second: place(second),
        }
    }

    /// The 64 bits of the call.
    pub fn answer(self) -> u64 {
        u64::from(self.number) + 256 * u64::from(self.first) + (1 << 24) * u64::from(self.second)
    }
}

fn place(number: usize) -> u16 {
    u16::try_from(number).expect("a place has 16 bits")
}

/// How a walk or a read ends.
#[derive(Clone, Copy, Debug, PartialEq, Eq)]
pub enum Ending {
    Done = 0,
    Cut = 13,
    Short = 14,
    Unfit = 15,
    Dropped = 16,
}

/// A header that was found in a packet.
#[derive(Clone, Copy, Debug, PartialEq, Eq)]
pub struct Mark {
    pub node: u8,
    pub kind: u8,
    pub offset: usize,
    pub length: usize,
}

/// What comes of reading a packet: the marks in order, and how it ended.
#[derive(Clone, Debug, PartialEq, Eq)]
pub struct Reading {
    pub marks: Vec<Mark>,
    pub ending: Ending,
    pub node: u8,
    pub offset: usize,
}

impl Reading {
    /// Ended at a header that was not marked.
    pub fn refused(marks: Vec<Mark>, ending: Ending, node: u8, offset: usize) -> Reading {
        Reading {
            marks,
            ending,
            node,
            offset,
        }
    }

    /// Ended behind the last marked header: done at the payload, else at that header.
    pub fn behind(marks: Vec<Mark>, ending: Ending) -> Reading {
        let last = *marks.last().expect("a header was marked");
        let offset = if ending == Ending::Done {
            last.offset + last.length
        } else {
            last.offset
        };
        Reading {
            marks,
            ending,
            node: last.node,
            offset,
        }
    }

    /// Writes the front of the area, which has room for it, and leaves the rest.
    pub fn write(&self, questions: usize, area: &mut [u8]) {
        let mut bytes = vec![byte(self.marks.len()), byte(questions), self.node, 0];
        bytes.extend(two_bytes(self.offset));
        for mark in &self.marks {
            bytes.extend([mark.node, mark.kind]);
            bytes.extend(two_bytes(mark.offset));
            bytes.extend(two_bytes(mark.length));
        }
        area[..bytes.len()].copy_from_slice(&bytes);
    }
}

fn byte(number: usize) -> u8 {
    u8::try_from(number).expect("the number has a byte")
}

fn two_bytes(number: usize) -> [u8; 2] {
    u16::try_from(number)
        .expect("the number has two bytes")
        .to_be_bytes()
}
