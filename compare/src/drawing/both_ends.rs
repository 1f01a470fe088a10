//! The session on paper at both ends, by the second program: what the booth sends, and what the stage takes of what arrives.

use crate::answers::went;
use crate::paper::{record, Definition, Plan, Sender};
use crate::stage::Receiver;
use crate::taking::Outcome;

/// The text that README runs.
const SESSION: &str = include_str!("../../../examples/session.txt");

/// A parcel on its line. A packet's bytes are all its number, so that it is known again when it is handed out; a marker's number is 0.
pub struct Sent {
    pub number: u8,
    pub line: usize,
    /// Where the line stood before it: the bytes that it had carried.
    pub at: u64,
    pub bytes: Vec<u8>,
}

impl Sent {
    pub fn is_marker(&self) -> bool {
        self.number == 0
    }
}

pub struct Booth {
    pub record: Vec<u8>,
    pub plan: Plan,
    /// In the order of the sender's calls.
    pub sent: Vec<Sent>,
}

fn numbers(text: &str) -> Vec<u64> {
    text.split(' ').map(|number| number.parse().expect("a number")).collect()
}

/// A marker of each line, as the sender writes it.
fn markers(sender: &Sender, definition: &Definition) -> Vec<Sent> {
    let marker = |line: usize| {
        let (length, out) = sender.marker(line as u32, &[0; 16]);
        Sent { number: 0, line, at: definition.position(line) as u64, bytes: out[..length as usize].to_vec() }
    };
    (0..sender.plan.lines as usize).map(marker).collect()
}

impl Booth {
    /// The whole session, each choice made by both forms of sending; markers are asked for where they are due.
    pub fn session() -> Booth {
        let mut lines = SESSION.lines();
        let record = record(&numbers(lines.next().expect("a plan")));
        let (refused, mut sender) = Sender::open(&record);
        assert_eq!(refused, 0, "the plan");
        let (mut definition, mut sent) = (Definition::open_at(sender.plan, 1), Vec::new());
        for (number, text) in (1u8..).zip(lines) {
            let (line, length) = (sender.line as usize, numbers(text)[0] as usize);
            let at = definition.position(line) as u64;
            let answer = sender.send(length);
            let (went_to, due) = went(answer).expect("a length in range");
            assert!(answer == definition.send(length) && definition.shows(&sender) && went_to as usize == line, "packet {number}");
            sent.push(Sent { number, line, at, bytes: vec![number; length] });
            if due {
                sent.extend(markers(&sender, &definition));
            }
        }
        Booth { record, plan: sender.plan, sent }
    }

    pub fn packets(&self) -> impl Iterator<Item = &Sent> {
        self.sent.iter().filter(|sent| !sent.is_marker())
    }

    pub fn markers(&self) -> impl Iterator<Item = &Sent> {
        self.sent.iter().filter(|sent| sent.is_marker())
    }
}

#[derive(PartialEq)]
pub enum What {
    Packet(u8, u64),
    Missing(u64),
    Waiting,
}

/// What a take came to, on which line, and where the stage took the line to stand before it.
pub struct Taken {
    pub what: What,
    pub line: usize,
    pub at: u64,
}

pub struct Stage {
    pub receiver: Receiver,
    pub store: Vec<u8>,
}

impl Stage {
    pub fn open(record: &[u8], size: u32) -> Stage {
        let (refused, receiver) = Receiver::open(record, size);
        assert_eq!(refused, 0, "the plan or the size");
        Stage { receiver, store: vec![0; receiver.plan.lines as usize * size as usize] }
    }

    pub fn arrive(&mut self, sent: &Sent) {
        let line = sent.line as u32;
        let refused = match sent.is_marker() {
            true => self.receiver.marker(line, &sent.bytes, &mut self.store),
            false => self.receiver.data(line, &sent.bytes, &mut self.store),
        };
        assert_eq!(refused, 0, "an arrival of {}", sent.number);
    }

    /// What the stage takes a line to have carried: whole quanta, and what its counter has fallen by.
    fn position(&self, line: usize) -> u64 {
        let (quantum, turns) = (self.receiver.plan.quanta[line], &self.receiver.turns);
        u64::from(turns.rounds[line] - 1) * u64::from(quantum) + u64::from(quantum - turns.counters[line])
    }

    pub fn take(&mut self) -> Taken {
        let line = self.receiver.current();
        let at = self.position(line);
        let mut out = vec![0; self.receiver.plan.max as usize];
        let what = match self.receiver.take(&self.store, &mut out) {
            Outcome::Data { length, .. } => What::Packet(out[0], length as u64),
            Outcome::Marker { missing, .. } => What::Missing(missing),
            Outcome::Waiting { .. } => What::Waiting,
            other => panic!("{other:?}"),
        };
        Taken { what, line, at }
    }

    /// Takes up to the first that waits, and that one.
    pub fn takes(&mut self) -> Vec<Taken> {
        let mut all = vec![self.take()];
        while all[all.len() - 1].what != What::Waiting {
            all.push(self.take());
        }
        all
    }
}
