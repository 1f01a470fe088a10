//! The far end by positions, from the specification's words once more, for sessions from opening alone. Of each line it keeps where the line
//! stands, in numbers that do not wrap, and its queue as a list: no counter, no ring, and nothing is taken modulo anything. A marker is where
//! the sender stood on its line when it was asked for. Every answer comes from these; what a state and a store must show is worked out behind
//! them, for the comparison.

use crate::paper::{numbers, Plan, LENGTH, LINE, MARKER, OTHER_LINE, OUTPUT, ROOM};
use crate::stage::Receiver;
use crate::taking::Outcome;
use std::collections::VecDeque;

enum Held {
    Data(Vec<u8>),
    Marker { position: u128, length: usize },
}

impl Held {
    /// Its bytes in the store.
    fn all(&self) -> usize {
        3 + match self {
            Held::Data(bytes) => bytes.len(),
            Held::Marker { length, .. } => *length,
        }
    }
}

#[derive(Default)]
struct Line {
    position: u128,
    queue: VecDeque<Held>,
    /// Every byte that was ever stored, and how many of them have been taken.
    tape: Vec<u8>,
    taken: usize,
}

pub struct FarEnd {
    plan: Plan,
    size: usize,
    lines: Vec<Line>,
}

impl FarEnd {
    /// From the opening, where the round is 1; or from the moment at which each line has yielded its quantum so often that the round is this.
    pub fn open_at(plan: Plan, size: u32, round: u32) -> FarEnd {
        let place = |line: usize| (u128::from(round) - 1) * u128::from(plan.quanta[line]);
        let lines = (0..plan.lines as usize).map(|line| Line { position: place(line), ..Line::default() }).collect();
        FarEnd { plan, size: size as usize, lines }
    }

    fn quantum(&self, line: usize) -> u128 {
        u128::from(self.plan.quanta[line])
    }

    /// One more than the whole quanta up to where the line stands.
    fn round(&self, line: usize) -> u128 {
        self.lines[line].position / self.quantum(line) + 1
    }

    /// Lowest round, lowest number on a tie.
    fn current(&self) -> usize {
        (0..self.lines.len()).min_by_key(|line| self.round(*line)).expect("a plan has a line")
    }

    fn store(&mut self, line: u32, kind: u8, bytes: &[u8], item: Held) -> u32 {
        let at = &mut self.lines[line as usize];
        let used: usize = at.queue.iter().map(Held::all).sum();
        if used + item.all() > self.size {
            return ROOM;
        }
        at.tape.extend([kind, (bytes.len() & 255) as u8, (bytes.len() >> 8) as u8]);
        at.tape.extend(bytes);
        at.queue.push_back(item);
        0
    }

    pub fn data(&mut self, line: u32, bytes: &[u8]) -> u32 {
        if line >= self.plan.lines {
            return LINE;
        }
        if bytes.is_empty() || bytes.len() > self.plan.max as usize {
            return LENGTH;
        }
        self.store(line, 0, bytes, Held::Data(bytes.to_vec()))
    }

    /// A marker that was asked for at this position of its line, or bytes that are none.
    pub fn marker(&mut self, line: u32, bytes: &[u8], position: u128) -> u32 {
        match self.judged(line, bytes) {
            0 => self.store(line, 1, bytes, Held::Marker { position, length: bytes.len() }),
            number => number,
        }
    }

    /// What stands against bytes as a marker on a line, but for room: the number, or 0.
    pub fn judged(&self, line: u32, bytes: &[u8]) -> u32 {
        if line >= self.plan.lines {
            return LINE;
        }
        match numbers(bytes).as_deref() {
            Some([named, _, counter]) if *counter >= 1 && *counter <= self.quantum(line as usize) => {
                if *named == u128::from(line) { 0 } else { OTHER_LINE }
            }
            _ => MARKER,
        }
    }

    /// One take into an output of so many bytes: what it comes to, and what it hands out.
    pub fn take(&mut self, room: usize) -> (Outcome, Vec<u8>) {
        let line = self.current();
        let at = &mut self.lines[line];
        let Some(item) = at.queue.pop_front() else {
            return (Outcome::Waiting { line }, Vec::new());
        };
        let all = item.all();
        let taken = match item {
            Held::Data(bytes) if bytes.len() > room => {
                at.queue.push_front(Held::Data(bytes));
                return (Outcome::Refused(OUTPUT), Vec::new());
            }
            Held::Data(bytes) => {
                at.position += bytes.len() as u128;
                (Outcome::Data { line, length: bytes.len() }, bytes)
            }
            Held::Marker { position, .. } if position < at.position => (Outcome::Behind { line }, Vec::new()),
            Held::Marker { position, .. } => {
                let missing = (position - at.position) as u64;
                at.position = position;
                (Outcome::Marker { line, missing }, Vec::new())
            }
        };
        at.taken += all;
        taken
    }

    /// What a receiver's state must show, rounds as far as 32 bits show them.
    pub fn shows(&self, receiver: &Receiver) -> bool {
        let line_shows = |line: usize| {
            let (at, round) = (&self.lines[line], self.round(line));
            receiver.turns.rounds[line] == round as u32
                && u128::from(receiver.turns.counters[line]) + at.position == self.quantum(line) * round
                && receiver.rings.used[line] as usize == at.tape.len() - at.taken
                && receiver.rings.heads[line] as usize == at.taken - at.taken / self.size * self.size
        };
        receiver.plan == self.plan
            && receiver.rings.size as usize == self.size
            && receiver.turns.round == self.round(self.current()) as u32
            && (0..self.lines.len()).all(line_shows)
    }

    /// Whether a store that was this at the opening now shows the last of each tape, laid round and round its ring, and else what it was.
    pub fn shown_by(&self, before: &[u8], store: &[u8]) -> bool {
        store.len() == self.size * self.lines.len()
            && self.lines.iter().enumerate().all(|(line, at)| {
                (0..self.size).all(|place| {
                    let last = (at.tape.len() > place).then(|| at.tape[place + (at.tape.len() - 1 - place) / self.size * self.size]);
                    store[line * self.size + place] == last.unwrap_or(before[line * self.size + place])
                })
            })
    }

    /// How often the ring that was gone round least was gone round.
    pub fn least_wraps(&self) -> usize {
        self.lines.iter().map(|line| line.tape.len() / self.size).min().expect("a plan has a line")
    }

    /// Whether every line's round is this or later.
    pub fn rounds_from(&self, round: u128) -> bool {
        (0..self.lines.len()).all(|line| self.round(line) >= round)
    }
}
