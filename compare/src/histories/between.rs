//! Calls between a question and its reply, which the Rust cannot make.
//!
//! Calls that change nothing are put between the lines of a history: 01 refuses them by 1, 13, 15 or
//! 23, they ask for the waiting question again, or do what is done already. The Rust is not asked;
//! what follows must be as if they had not been made. Calls that key, remove or release are moved
//! from behind a datagram to the last question of it, where they must do the same.

use super::*;
use crate::beside;
use crate::dice::Dice;

/// What the lines so far have done.
#[derive(Default)]
struct State {
    keyed: Vec<u16>,
    highest: u16,
    encryption: bool,
    released: bool,
    /// The answer that asked the question that waits, and its kind.
    question: Option<(u8, Vec<u8>)>,
}

/// The epoch at a place of a line's bytes.
fn epoch(bytes: &[u8], at: usize) -> u16 {
    u16::from_be_bytes([bytes[at], bytes[at + 1]])
}

impl State {
    fn follow(&mut self, line: &Line) {
        match line.letter {
            'f' => *self = Self::default(),
            'k' => {
                self.highest = epoch(&line.asked, 0);
                self.keyed.push(self.highest);
            }
            'x' => {
                let epoch = epoch(&line.asked, 0);
                self.keyed.retain(|keyed| *keyed != epoch);
            }
            'e' => self.encryption = true,
            'l' => self.released = true,
            'b' => self.question = None,
            'r' | 'm' | 'o' => {
                let kind = kind(line);
                let asks = matches!(kind, MASK | OPENING);
                self.question = asks.then(|| (kind, line.answered.clone()));
            }
            _ => {}
        }
    }

    fn waits(&self, kind: u8) -> bool {
        self.question.as_ref().is_some_and(|(k, _)| *k == kind)
    }

    /// A call that changes nothing here, if the one chosen exists.
    fn call(&self, dice: &mut Dice, room: bool) -> Option<Line> {
        let mut run = Run::default();
        let mut refused = |letter, input: &[u8], number| {
            let answer = Answer {
                refusal: number,
                ..Answer::default()
            };
            run.say(letter, input, answer);
        };
        let applications = self.keyed.iter().filter(|epoch| **epoch >= 3).count();
        match dice.below(10) {
            0 => {
                let epoch = dice.of(&[0, 1, self.highest]);
                let mut input = epoch.to_be_bytes().to_vec();
                input.extend_from_slice(&[7; 12]);
                refused('k', &input, 13);
            }
            1 if applications == 4 && self.highest < u16::MAX => {
                let mut input = (self.highest + 1).to_be_bytes().to_vec();
                input.extend_from_slice(&[7; 12]);
                refused('k', &input, 23);
            }
            2 => {
                let epoch = dice.below(8) as u16;
                if self.keyed.contains(&epoch) {
                    return None;
                }
                refused('x', &epoch.to_be_bytes(), 13);
            }
            3 if !self.waits(MASK) => refused('m', &dice.bytes(2), 15),
            4 if !self.waits(OPENING) => refused('o', &[0], 15),
            5 if !self.waits(OPENING) => refused('o', &[1, 23], 15),
            6 if self.encryption => refused('e', &[], 0),
            7 if self.released => refused('l', &[], 0),
            8 => {
                let (_, answer) = self.question.as_ref()?;
                return Some(Line {
                    letter: 'r',
                    asked: Vec::new(),
                    answered: answer.clone(),
                });
            }
            9 if room && dice.once_in(40) => refused('b', &[0x2F; 16_385], 1),
            _ => {}
        }
        run.lines.pop()
    }
}

fn kind(line: &Line) -> u8 {
    line.answered[1]
}

/// The last question of the datagram that ends the lines, if nothing is read behind its replies.
fn last_question(lines: &[Line]) -> Option<usize> {
    let asks = |line: &Line| matches!(kind(line), MASK | OPENING);
    let begun = lines.iter().rposition(|line| line.letter == 'b')?;
    let last = begun + lines[begun..].iter().rposition(asks)?;
    let quiet = |line: &Line| line.letter != 'r' || kind(line) == END;
    lines[last + 1..].iter().all(quiet).then_some(last)
}

/// The lines with calls moved from behind a datagram to its last question.
fn moved(lines: Vec<Line>, dice: &mut Dice) -> Vec<Line> {
    let mut all: Vec<Line> = Vec::new();
    // The question of the datagram just read, and how many calls are moved there.
    let mut place = None;
    for line in lines {
        let letter = line.letter;
        let moves = match (letter, place) {
            ('k' | 'l', Some(_)) => true,
            ('x', Some((at, _))) => {
                let asked: &Line = &all[at];
                epoch(&line.asked, 0) != epoch(&asked.answered, 3)
            }
            _ => false,
        };
        if moves && dice.once_in(2) {
            let (at, count) = place.unwrap();
            all.insert(at + 1 + count, line);
            place = Some((at, count + 1));
            continue;
        }
        all.push(line);
        place = match letter {
            'd' => last_question(&all).map(|at| (at, 0)),
            _ => None,
        };
    }
    all
}

/// The lines with such calls between them.
pub fn add(lines: Vec<Line>, seed: u64) -> Vec<Line> {
    let mut dice = Dice::new(seed);
    let lines = moved(lines, &mut dice);
    let mut room = beside::length(&lines) < 15_000;
    let mut state = State::default();
    let mut all = Vec::new();
    for line in lines {
        state.follow(&line);
        all.push(line);
        while dice.once_in(5) {
            let Some(call) = state.call(&mut dice, room) else {
                continue;
            };
            room = room && call.length() <= 100;
            all.push(call);
        }
    }
    all
}

/// How many calls key, remove or release while a question waits.
pub fn at_questions(lines: &[Line]) -> usize {
    let mut state = State::default();
    let mut count = 0;
    for line in lines {
        let changes = matches!(line.letter, 'k' | 'x' | 'l');
        count += (changes && line.refusal() == 0 && state.question.is_some()) as usize;
        if line.refusal() == 0 || !changes {
            state.follow(line);
        }
    }
    count
}
