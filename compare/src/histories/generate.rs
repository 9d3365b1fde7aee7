//! Random histories.

use super::*;
use crate::dice::Dice;

/// What the making of records needs to know of the state: the epochs keyed, each with the highest
/// number used, and whether the peer encrypts.
#[derive(Default)]
struct Model {
    epochs: Vec<(u16, Option<u64>)>,
    highest_epoch: u16,
    encryption: bool,
    released: bool,
    min: usize,
}

impl Model {
    fn resolve(&self, bits: u8) -> Option<usize> {
        let application = self
            .epochs
            .iter()
            .rposition(|(epoch, _)| *epoch >= 3 && epoch % 4 == bits as u16);
        let two = self
            .epochs
            .iter()
            .position(|(epoch, _)| *epoch == 2 && bits == 2);
        if self.released {
            application.or(two)
        } else {
            two.or(application)
        }
    }
}

/// A datagram in the making.
#[derive(Default)]
pub struct Packet {
    pub bytes: Vec<u8>,
    pub replies: Vec<Reply>,
}

impl Packet {
    pub fn step(self) -> Step {
        Step::Datagram {
            bytes: self.bytes,
            replies: self.replies,
        }
    }

    pub fn plaintext(
        &mut self,
        content_type: u8,
        version: u16,
        epoch: u16,
        number: u64,
        body: &[u8],
    ) {
        self.bytes.push(content_type);
        self.bytes.extend_from_slice(&version.to_be_bytes());
        self.bytes.extend_from_slice(&epoch.to_be_bytes());
        self.bytes.extend_from_slice(&number.to_be_bytes()[2..]);
        self.bytes
            .extend_from_slice(&(body.len() as u16).to_be_bytes());
        self.bytes.extend_from_slice(body);
    }

    /// A sealed record; the number is masked.
    pub fn sealed(
        &mut self,
        bits: u8,
        s_flag: bool,
        length: bool,
        number: u64,
        mask: [u8; 2],
        part: &[u8],
    ) {
        let flags = 0x20 | (s_flag as u8) << 3 | (length as u8) << 2 | bits & 3;
        self.bytes.push(flags);
        if s_flag {
            self.bytes.push((number >> 8) as u8 ^ mask[0]);
            self.bytes.push(number as u8 ^ mask[1]);
        } else {
            self.bytes.push(number as u8 ^ mask[0]);
        }
        if length {
            self.bytes
                .extend_from_slice(&(part.len() as u16).to_be_bytes());
        }
        self.bytes.extend_from_slice(part);
    }

    pub fn reply(&mut self, mask: [u8; 2], opening: Option<Vec<u8>>) {
        self.replies.push(Reply { mask, opening });
    }
}

const LAST: u64 = (1 << 48) - 1;
const TYPES: [u8; 8] = [21, 22, 23, 26, 23, 20, 99, 255];

/// About the middle and the end of the first block of 16 and of 8 bits, where a number a block below may be negative.
const FIRST_BLOCK: [u64; 12] = [
    32_767, 32_768, 32_769, 40_000, 65_535, 65_536, 127, 128, 129, 200, 255, 256,
];

/// A number near what is expected, or at the edges of window and rebuilding.
fn number(dice: &mut Dice, highest: Option<u64>) -> u64 {
    let e = highest.map_or(0, |highest| highest + 1);
    if e < 65_536 && dice.once_in(40) {
        return dice.of(&FIRST_BLOCK);
    }
    let near = e as i64;
    let distance = match dice.below(12) {
        0..=4 => 0,
        5 => dice.of(&[1, 2, 3, 62, 63, 64, 65]),
        6 => dice.of(&[-1, -1, -2, -3, -4]),
        7 => dice.of(&[-62, -63, -64, -65, -66]),
        8 => dice.of(&[126, 127, 128, 129, -126, -127, -128, -129]),
        9 => dice.of(&[32_766, 32_767, 32_768, 32_769, -32_767, -32_768, -32_769]),
        10 => dice.below(80) as i64 - 70,
        _ => dice.below(70_000) as i64 - 35_000,
    };
    near.saturating_add(distance).max(0) as u64 & LAST
}

/// What a sealed record holds: content, type and padding, or zeros only.
fn inner(dice: &mut Dice) -> Vec<u8> {
    if dice.once_in(12) {
        return vec![0; dice.below(4)];
    }
    let length = match dice.below(20) {
        0 => 0,
        1 => 100 + dice.below(300),
        _ => dice.below(24),
    };
    let mut text = dice.bytes(length);
    text.push(dice.of(&TYPES));
    if dice.once_in(3) {
        text.resize(text.len() + dice.of(&[1, 2, 3, 20]), 0);
    }
    text
}

fn sealed(dice: &mut Dice, model: &mut Model, packet: &mut Packet, last: bool) {
    let keyed = !model.epochs.is_empty() && !dice.once_in(10);
    let bits = if keyed {
        let i = dice.below(model.epochs.len());
        (model.epochs[i].0 % 4) as u8
    } else {
        dice.below(4) as u8
    };
    let found = model.resolve(bits);
    let highest = found.and_then(|i| model.epochs[i].1);
    let n = number(dice, highest);
    let s_flag = dice.below(3) > 0;
    let length = !last || dice.below(3) > 0;
    let mask = if dice.once_in(6) {
        [0, 0]
    } else {
        [dice.byte(), dice.byte()]
    };
    let text = inner(dice);
    let part = match dice.below(16) {
        0 => dice.of(&[0, 1, 15, 16, 17]),
        _ => text.len() + 16,
    };
    let bytes = dice.bytes(part);
    packet.sealed(bits, s_flag, length, n, mask, &bytes);
    // Only records that come so far are asked about.
    let Some(i) = found else { return };
    if !model.encryption || part < model.min.max(16) {
        return;
    }
    // A wrong mask now and then.
    let mask = if dice.once_in(25) {
        [dice.byte(), dice.byte()]
    } else {
        mask
    };
    if dice.once_in(5) {
        packet.reply(mask, None);
        return;
    }
    let mut text = text;
    if dice.once_in(20) {
        text.truncate(dice.below(text.len() + 1));
    }
    packet.reply(mask, Some(text));
    // Far numbers are rebuilt as others: what is told here only steers the making.
    let e = highest.map_or(0, |highest| highest + 1);
    let block: u64 = if s_flag { 65_536 } else { 256 };
    if n < block.max(e + block / 2) {
        model.epochs[i].1 = Some(highest.map_or(n, |highest| highest.max(n)));
    }
}

fn plaintext(dice: &mut Dice, packet: &mut Packet) {
    let content_type = if dice.once_in(6) {
        dice.of(&[0, 20, 23, 24, 25, 27, 31, 64, 128, 255])
    } else {
        dice.of(&[21, 22, 26])
    };
    let version = if dice.once_in(8) {
        dice.of(&[0xFEFC, 0x0303, 0xFEFE, 0xFDFD])
    } else {
        dice.of(&[0xFEFD, 0xFEFD, 0xFEFF])
    };
    let epoch = if dice.once_in(10) {
        dice.of(&[1, 2, 256])
    } else {
        0
    };
    let number = match dice.below(4) {
        0 => LAST,
        1 => dice.below(1 << 48) as u64,
        _ => dice.below(20) as u64,
    };
    let length = dice.below(20);
    let body = dice.bytes(length);
    packet.plaintext(content_type, version, epoch, number, &body);
}

/// Bytes changed, cut off, put in or taken out.
fn damage(dice: &mut Dice, bytes: &mut Vec<u8>) {
    for _ in 0..1 + dice.below(3) {
        if bytes.is_empty() {
            bytes.push(dice.byte());
            continue;
        }
        let at = dice.below(bytes.len());
        match dice.below(6) {
            0 => bytes.truncate(at),
            1 => bytes[at] ^= 1 << dice.below(8),
            2 => bytes[at] = dice.byte(),
            3 => bytes.insert(at, dice.byte()),
            4 => drop(bytes.remove(at)),
            // The first bytes are those of a header.
            _ => bytes[at.min(4)] = dice.of(&[0, 1, 0x20, 0x2C, 0x2E, 0x2F, 0x30, 0x3F, 255]),
        }
    }
}

fn datagram(dice: &mut Dice, model: &mut Model) -> Step {
    let mut packet = Packet::default();
    let count = match dice.below(14) {
        0 => 0,
        1 => 14 + dice.below(6),
        _ => 1 + dice.below(3),
    };
    let mostly_plain = dice.once_in(3);
    for i in 0..count {
        let plain = if mostly_plain {
            !dice.once_in(8)
        } else {
            dice.once_in(8)
        };
        if plain {
            plaintext(dice, &mut packet);
        } else {
            sealed(dice, model, &mut packet, i + 1 == count);
        }
        if dice.once_in(60) {
            packet.bytes.push(0x30 | dice.below(16) as u8);
        }
    }
    // The same bytes once more: replays.
    if dice.once_in(8) && packet.bytes.len() < 400 {
        packet.bytes.extend(packet.bytes.clone());
        packet.replies.extend(packet.replies.clone());
    }
    if dice.once_in(5) {
        damage(dice, &mut packet.bytes);
    }
    packet.step()
}

/// Asks for the verdict on every number about an epoch's highest; the cipher says no to all.
fn sweep(dice: &mut Dice, model: &Model) -> Option<Step> {
    if model.epochs.is_empty() || !model.encryption {
        return None;
    }
    let (epoch, highest) = model.epochs[dice.below(model.epochs.len())];
    let highest = highest?;
    let mut packet = Packet::default();
    for n in highest.saturating_sub(66)..=(highest + 2).min(LAST) {
        packet.sealed((epoch % 4) as u8, true, true, n, [0, 0], &[n as u8; 16 + 1]);
        packet.reply([0, 0], None);
    }
    Some(packet.step())
}

/// A random history.
pub fn random(dice: &mut Dice) -> History {
    let min = dice.of(&[16, 16, 16, 0, 15, 17]);
    let mut model = Model {
        min: min as usize,
        ..Model::default()
    };
    let mut steps = Vec::new();
    let key = |dice: &mut Dice, model: &mut Model, steps: &mut Vec<Step>, epoch: u16| {
        let applications = model.epochs.iter().filter(|(e, _)| *e >= 3).count();
        if epoch <= model.highest_epoch || epoch >= 3 && applications >= 4 {
            return;
        }
        let iv = std::array::from_fn(|_| dice.byte());
        model.highest_epoch = epoch;
        model.epochs.push((epoch, None));
        steps.push(Step::Key { epoch, iv });
    };
    // Most histories begin as a handshake does.
    if !dice.once_in(6) {
        key(dice, &mut model, &mut steps, 2);
    }
    if dice.once_in(2) {
        key(dice, &mut model, &mut steps, 3);
    }
    if dice.once_in(2) {
        model.encryption = true;
        steps.push(Step::Encrypt);
    }
    for _ in 0..3 + dice.below(12) {
        match dice.below(20) {
            0 | 1 => {
                let next = model.highest_epoch.max(1) as usize + dice.of(&[1, 1, 1, 2, 4, 5]);
                key(dice, &mut model, &mut steps, next as u16);
            }
            2 if !model.epochs.is_empty() => {
                let i = dice.below(model.epochs.len());
                steps.push(Step::Remove(model.epochs.remove(i).0));
            }
            3 | 4 => {
                model.encryption = true;
                steps.push(Step::Encrypt);
            }
            5 => {
                model.released = true;
                steps.push(Step::Release);
            }
            6 if !model.epochs.is_empty() => {
                let i = dice.below(model.epochs.len());
                let (epoch, highest) = &mut model.epochs[i];
                let far = dice.of(&[
                    1 << 8,
                    (1 << 16) - 1,
                    1 << 16,
                    1 << 32,
                    LAST - 65_536,
                    LAST - 32_768,
                    LAST - 1,
                    LAST,
                ]);
                let number = (far - dice.below(4) as u64).min(LAST);
                let epoch = *epoch;
                *highest = Some(highest.map_or(number, |highest| highest.max(number)));
                steps.push(Step::Mark { epoch, number });
            }
            7 => steps.extend(sweep(dice, &model)),
            _ => steps.push(datagram(dice, &mut model)),
        }
    }
    History {
        min_protected: min,
        between: if dice.once_in(2) {
            dice.below(usize::MAX) as u64
        } else {
            0
        },
        steps,
    }
}
