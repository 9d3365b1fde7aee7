//! What post and gateway say to each other in application data.

pub enum Word {
    /// Energy since the last meter record, in Wh.
    Meter { index: u32, wh: u32 },
    /// The car is charged: so many meter records were sent.
    Charged { records: u32 },
    /// An order by its number: a limit in A, or stop.
    Order { number: u32, stop: bool, ampere: u32 },
}

fn laid(kind: u8, a: u32, b: u32, c: u32) -> [u8; 32] {
    let mut content = [0; 32];
    content[0] = kind;
    content[4..8].copy_from_slice(&a.to_be_bytes());
    content[8..12].copy_from_slice(&b.to_be_bytes());
    content[12..16].copy_from_slice(&c.to_be_bytes());
    content
}

impl Word {
    pub fn bytes(&self) -> [u8; 32] {
        match *self {
            Word::Meter { index, wh } => laid(1, index, wh, 0),
            Word::Charged { records } => laid(2, records, 0, 0),
            Word::Order { number, stop, ampere } => laid(3, number, stop.into(), ampere),
        }
    }

    pub fn of(content: &[u8]) -> Option<Word> {
        let content: &[u8; 32] = content.try_into().ok()?;
        let at = |i: usize| u32::from_be_bytes([content[i], content[i + 1], content[i + 2], content[i + 3]]);
        match content[0] {
            1 => Some(Word::Meter { index: at(4), wh: at(8) }),
            2 => Some(Word::Charged { records: at(4) }),
            3 => Some(Word::Order { number: at(4), stop: at(8) == 1, ampere: at(12) }),
            _ => None,
        }
    }
}
