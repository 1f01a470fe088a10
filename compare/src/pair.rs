//! A receiver of each side, the archive's and the second program's. Every call goes to both; then answer, state, store, output and log must
//! be equal. Behind each output and log lie a few places that are not lent, and must stay.

use crate::answers::done;
use crate::cases::differs;
use crate::paper::Plan;
use crate::stage::{Receiver, Rings, Turns};
use crate::taking::StageRun;
use crate::{plain, proved};

const BEHIND: usize = 8;

pub struct Pair {
    pub receiver: Receiver,
    pub store: Vec<u8>,
    second: Receiver,
    second_store: Vec<u8>,
}

/// No state that an opening leaves: every word is set.
fn unopened() -> Receiver {
    const WORD: u32 = 0xEEEE_EEEE;
    let plan = Plan { lines: WORD, max: WORD, interval: WORD, quanta: [WORD; 16] };
    let rings = Rings { size: WORD, heads: [WORD; 16], used: [WORD; 16] };
    let turns = Turns { round: WORD, rounds: [WORD; 16], counters: [WORD; 16] };
    Receiver { plan, rings, turns }
}

/// The number that an opening gets, and the state it leaves.
pub fn opened(record: &[u8], size: u32) -> (u32, Receiver) {
    let mut receiver = unopened();
    let proved = (proved::open_receiver(&mut receiver, record, size), receiver);
    let (number, second) = Receiver::open(record, size);
    if proved != (done(number), second) {
        differs("opening a receiver", format!("{record:02x?} {size}: {proved:?} and {number} {second:?}"));
    }
    (number, receiver)
}

fn first_difference<T: PartialEq>(one: &[T], other: &[T]) -> Option<usize> {
    one.iter().zip(other).position(|(a, b)| a != b)
}

/// The same again, with places behind it that are not lent.
pub fn longer<T: Copy>(before: &[T], behind: T) -> Vec<T> {
    before.iter().copied().chain([behind; BEHIND]).collect()
}

/// What a run answers, and output and log as it leaves them, with what lies behind them.
type Run = (StageRun, Vec<u8>, Vec<u64>);

fn run(takes: impl Fn(&mut Receiver, &[u8], &mut [u8], &mut [u64]) -> StageRun, state: &mut Receiver, store: &[u8], out: &[u8], log: &[u64]) -> Run {
    let (mut output, mut words) = (longer(out, 0xEE), longer(log, u64::MAX));
    let answer = takes(state, store, &mut output[..out.len()], &mut words[..log.len()]);
    (answer, output, words)
}

impl Pair {
    pub fn new(receiver: Receiver, store: Vec<u8>) -> Pair {
        Pair { receiver, second: receiver, second_store: store.clone(), store }
    }

    /// Holds both sides against each other after a call.
    fn hold<A: PartialEq + std::fmt::Debug>(&self, before: &Receiver, call: &dyn Fn() -> String, proved: A, second: A) -> A {
        if proved != second || self.receiver != self.second {
            differs(&call(), format!("{before:?}: {proved:?} {:?} and {second:?} {:?}", self.receiver, self.second));
        }
        if self.store != self.second_store {
            differs(&call(), format!("{before:?}: the stores from {:?} on", first_difference(&self.store, &self.second_store)));
        }
        proved
    }

    /// The number that data gets.
    pub fn data(&mut self, line: u32, bytes: &[u8]) -> u32 {
        let before = self.receiver;
        let proved = proved::data_arrives(&mut self.receiver, line, bytes, &mut self.store);
        let number = self.second.data(line, bytes, &mut self.second_store);
        self.hold(&before, &|| format!("data on line {line}, length {}", bytes.len()), proved, done(number));
        number
    }

    /// The number that a marker gets.
    pub fn marker(&mut self, line: u32, bytes: &[u8]) -> u32 {
        let before = self.receiver;
        let proved = proved::marker_arrives(&mut self.receiver, line, bytes, &mut self.store);
        let number = self.second.marker(line, bytes, &mut self.second_store);
        self.hold(&before, &|| format!("a marker on line {line}, {bytes:02x?}"), proved, done(number));
        number
    }

    /// The answer of a take, and the output as it leaves it.
    pub fn take(&mut self, out: &[u8]) -> (u64, Vec<u8>) {
        let before = self.receiver;
        let (mut one, mut other) = (longer(out, 0xEE), longer(out, 0xEE));
        let proved = proved::take(&mut self.receiver, &self.store, &mut one[..out.len()]);
        let second = self.second.take(&self.second_store, &mut other[..out.len()]).word();
        let word = self.hold(&before, &|| format!("a take into {} bytes", out.len()), proved, second);
        if one != other {
            differs("a take's output", format!("{before:?}: {word} and the bytes from {:?} on", first_difference(&one, &other)));
        }
        one.truncate(out.len());
        (word, one)
    }

    /// A run of takes; the benchmark's loop must do the same as the two sides.
    pub fn takes(&mut self, out: &[u8], log: &[u64]) -> Run {
        let (before, mut state) = (self.receiver, self.receiver);
        let mut proved = run(proved::takes, &mut self.receiver, &self.store, out, log);
        let second = run(Receiver::takes, &mut self.second, &self.second_store, out, log);
        let plain = run(plain::takes, &mut state, &self.store, out, log);
        self.hold(&before, &|| format!("{} takes into {} bytes", log.len(), out.len()), proved.0, second.0);
        if proved != second {
            let from = (first_difference(&proved.1, &second.1), first_difference(&proved.2, &second.2));
            differs("a run's output and log", format!("{before:?}: from {from:?} on"));
        }
        if plain != second || state != self.second {
            differs("the benchmark's loop", format!("{before:?}: {:?} {state:?} and {:?} {:?}", plain.0, second.0, self.second));
        }
        proved.1.truncate(out.len());
        proved.2.truncate(log.len());
        proved
    }
}
