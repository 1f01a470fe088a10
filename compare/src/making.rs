//! A recording while it is made up: steps played by the second program as they are laid down, and sessions by chance.

use crate::chance::Chance;
use crate::paper::record;
use crate::player::{
    receiver_figure, sender_figure, Second, Step, World, ASK, DATA, LEND, MARKER, OPEN, OUTPUT, COUNTERS, USED, RUN, SEND, SET_BYTE, SET_RECEIVER, SET_SENDER,
    STORE, TAKE, UNUSED, WORDS,
};
use std::collections::VecDeque;

/// What an arrival answers that is not refused.
const STORED: &str = "arrived 0 0";

/// A step's bytes in a recording.
pub fn written(step: &Step) -> Vec<u8> {
    let [a, b, c] = step.numbers;
    let mut all = record(&[step.kind, a, b, c, step.bytes.len() as u32].map(u64::from));
    all.extend(&step.bytes);
    all
}

#[derive(Clone)]
enum Item {
    /// Its number in sent order, and its length.
    Packet(u32, u32),
    Marker(Vec<u8>),
}

pub struct Making {
    pub world: World,
    pub steps: Vec<Step>,
    under_way: Vec<VecDeque<Item>>,
    /// Markers that have been stored, by line.
    pub stored: Vec<(u32, Vec<u8>)>,
    packets: u32,
    stored_bytes: Vec<u32>,
}

impl Making {
    pub fn new() -> Making {
        Making { world: World::new(), steps: Vec::new(), under_way: Vec::new(), stored: Vec::new(), packets: 0, stored_bytes: Vec::new() }
    }

    /// Lays down a step, and answers what it answers, its words one space apart. What is refused leaves all as it was.
    pub fn step(&mut self, kind: u32, numbers: [u32; 3], bytes: &[u8]) -> String {
        let before = self.world.left();
        self.steps.push(Step { kind, numbers, bytes: bytes.to_vec() });
        let said = self.world.play(&Second, &self.steps[self.steps.len() - 1]);
        let answer = said.split_whitespace().collect::<Vec<&str>>().join(" ");
        let refused = answer.starts_with("refused") || answer.starts_with("arrived") && answer != STORED;
        let kept = before == self.world.left() && self.world.out.iter().all(|byte| *byte == UNUSED);
        assert!(!refused || kept, "{answer} changes something");
        answer
    }

    /// A step that must answer this. Behind it there may be numbers of 0, and the output's digest.
    pub fn expect(&mut self, expected: &str, kind: u32, numbers: [u32; 3], bytes: &[u8]) {
        let answer = self.step(kind, numbers, bytes);
        let rest = answer.strip_prefix(expected).unwrap_or(" another");
        let more: Vec<&str> = rest.split(' ').skip(1).filter(|word| *word != "0" && word.len() != 10).collect();
        assert!(more.is_empty(), "{answer}, not {expected}, at kind {kind}: {numbers:?} {bytes:02x?}");
    }

    pub fn open(&mut self, plan: &[u8], size: u32) {
        self.expect("plan 0 0 opened 0 0", OPEN, [size, 0, 0], plan);
        let lines = self.lines();
        self.step(LEND, [lines * size, 0, 0], &[]);
        (self.under_way, self.stored, self.packets) = (vec![VecDeque::new(); lines as usize], Vec::new(), 0);
        self.stored_bytes = vec![0; lines as usize];
    }

    pub fn lines(&self) -> u32 {
        self.world.sender.plan.lines
    }

    fn max(&self) -> u32 {
        self.world.sender.plan.max
    }

    pub fn send(&mut self, length: u32) {
        let answer = self.step(SEND, [length, 0, 0], &[]);
        let Some(line) = answer.strip_prefix("sent ").and_then(|rest| rest.split(' ').next()) else {
            return;
        };
        self.packets += 1;
        self.under_way[line.parse::<usize>().expect("a line")].push_back(Item::Packet(self.packets, length));
        if answer.ends_with(" 1") {
            (0..self.lines()).for_each(|line| self.ask(line, 9));
        }
    }

    fn ask(&mut self, line: u32, room: u32) {
        let answer = self.step(ASK, [line, room, 0], &[]);
        if let Some(length) = answer.strip_prefix("written ").and_then(|rest| rest.split(' ').next()) {
            let bytes = self.world.out[..length.parse().expect("a length")].to_vec();
            self.under_way[line as usize].push_back(Item::Marker(bytes));
        }
    }

    fn data(&mut self, line: u32, number: u32, length: u32) -> String {
        self.step(DATA, [line, number, length], &[])
    }

    fn marker(&mut self, line: u32, bytes: &[u8]) -> String {
        let answer = self.step(MARKER, [line, 0, 0], bytes);
        if answer == STORED {
            self.stored.push((line, bytes.to_vec()));
        }
        answer
    }

    /// The oldest item under way on a line arrives, and is stored or refused, or is lost before. Answers whether there was one.
    pub fn arrive(&mut self, line: u32, lost: impl Fn(u32) -> bool) -> bool {
        let Some(item) = self.under_way[line as usize].pop_front() else {
            return false;
        };
        let (answer, all) = match item {
            Item::Packet(number, _) if lost(number) => return true,
            Item::Marker(_) if lost(0) => return true,
            Item::Packet(number, length) => (self.data(line, number, length), 3 + length),
            Item::Marker(bytes) => (self.marker(line, &bytes), 3 + bytes.len() as u32),
        };
        if answer == STORED {
            self.stored_bytes[line as usize] += all;
        }
        true
    }

    pub fn take(&mut self, room: u32) -> String {
        self.step(TAKE, [room, 0, 0], &[])
    }

    fn take_or_run(&mut self, chance: &mut Chance) {
        let max = u64::from(self.max());
        let room = if chance.one_in(8) { chance.between(0, max) } else { max + chance.between(0, 9) } as u32;
        match chance.between(0, 7) {
            0 => self.step(RUN, [4 * room, chance.between(0, 3) as u32, 0], &[]),
            1 => self.step(RUN, [OUTPUT as u32, WORDS as u32, 0], &[]),
            _ => self.take(room),
        };
    }

    /// A call that is refused: every number that an arrival or a request can bring but 7 and 9.
    fn refused(&mut self, line: u32, chance: &mut Chance) {
        let (max, beyond) = (self.max(), self.lines());
        let round = u64::from(self.world.receiver.turns.rounds[line as usize]);
        let quantum = u64::from(self.world.receiver.plan.quanta[line as usize]);
        let good = record(&[u64::from(line), round, quantum]);
        let (expected, answer) = match chance.between(0, 10) {
            0 => ("refused 4 0", self.step(SEND, [0; 3], &[])),
            1 => ("refused 4 0", self.step(SEND, [max + 1, 0, 0], &[])),
            2 => ("refused 3 0", self.step(ASK, [beyond, 9, 0], &[])),
            3 => ("refused 8 0", self.step(ASK, [line, 2, 0], &[])),
            4 => ("arrived 4 0", self.data(line, 0, 0)),
            5 => ("arrived 4 0", self.data(line, 0, max + 1)),
            6 => ("arrived 3 0", self.data(beyond, 0, 1)),
            7 => ("arrived 5 0", self.marker(line, &good[..good.len() - 1])),
            8 => ("arrived 5 0", self.marker(line, &record(&[u64::from(line), round, quantum + 1]))),
            9 => ("arrived 3 0", self.marker(beyond, &good)),
            _ => ("arrived 6 0", self.marker(line, &record(&[u64::from(line) + 1, round, quantum]))),
        };
        assert!(answer.starts_with(expected), "{answer}, not {expected}");
    }

    fn any_step(&mut self, loses: u64, chance: &mut Chance) {
        let max = u64::from(self.max());
        let line = chance.between(0, u64::from(self.lines()) - 1) as u32;
        let many = self.lines() > 4;
        match chance.between(0, 19) {
            step if step <= 5 || many && step >= 18 => {
                let least = if many && !chance.one_in(4) { max / 2 } else { 1 };
                self.send(if chance.one_in(8) { max } else { chance.between(least, max) } as u32);
            }
            6 => self.refused(line, chance),
            7 => self.ask(line, 12),
            8 if chance.one_in(2) && !self.stored.is_empty() => {
                let (line, bytes) = self.stored[chance.between(0, self.stored.len() as u64 - 1) as usize].clone();
                self.marker(line, &bytes);
            }
            8..=13 => self.take_or_run(chance),
            _ => {
                let current = self.world.receiver.current() as u32;
                let lost = loses > 0 && chance.one_in(loses);
                self.arrive(if chance.one_in(3) { line } else { current }, |_| lost);
            }
        }
    }

    /// Each line's round brought to its end by markers, one that is as far ahead as may be and one that is just too far among them, and packets
    /// that take it past 2^32.
    fn far_ahead(&mut self, chance: &mut Chance) {
        const HALF: u32 = 1 << 31;
        while self.world.receiver.rings.used[self.world.receiver.current()] > 0 {
            self.take(512);
        }
        let jumps: [fn(u32) -> u32; 5] = [|round| round + HALF, |round| round + (HALF - 1), |_| u32::MAX - 1, |round| round, |round| round - 1];
        for jump in jumps {
            for line in 0..self.lines() {
                let round = jump(self.world.receiver.turns.rounds[line as usize]);
                let quantum = self.world.receiver.plan.quanta[line as usize];
                self.marker(line, &record(&[line, round, quantum].map(u64::from)));
            }
            (0..self.lines()).for_each(|_| _ = self.take(512));
        }
        for number in 0..6 * self.lines() {
            let line = chance.between(0, u64::from(self.lines()) - 1) as u32;
            self.data(line, number, self.max());
            self.take(512);
        }
    }

    /// A figure, a byte of the store, or how much of it is lent.
    fn value(&mut self, kind: u32, place: u32, line: u32) -> u32 {
        let world = &mut self.world;
        match kind {
            SET_SENDER => *sender_figure(&mut world.sender, place, line as usize).expect("a sender's figure"),
            SET_RECEIVER => *receiver_figure(&mut world.receiver, place, line as usize).expect("a receiver's figure"),
            SET_BYTE => u32::from(world.store[place as usize]),
            _ => world.lent as u32,
        }
    }

    pub fn set(&mut self, kind: u32, place: u32, line: u32, value: u32) {
        let numbers = match kind {
            LEND => [value, 0, 0],
            SET_BYTE => [place, value, 0],
            _ => [place, line, value],
        };
        self.expect("", kind, numbers, &[]);
    }

    /// One thing set to another value for a while.
    pub fn with(&mut self, kind: u32, place: u32, line: u32, value: u32, meanwhile: impl FnOnce(&mut Making)) {
        let was = self.value(kind, place, line);
        self.set(kind, place, line, value);
        meanwhile(self);
        self.set(kind, place, line, was);
    }

    /// A word for another: near it, far from it, or any.
    fn other_word(was: u32, chance: &mut Chance) -> u32 {
        match chance.between(0, 4) {
            0 => was.wrapping_add(1),
            1 => was.wrapping_sub(1),
            2 => was ^ 1 << 31,
            3 => chance.between(0, 600) as u32,
            _ => chance.next() as u32,
        }
    }

    /// A call of each kind while one thing is damaged.
    fn damaged(&mut self, chance: &mut Chance) {
        let (lines, max) = (u64::from(self.lines()), u64::from(self.max()));
        let line = chance.between(0, lines - 1) as u32;
        let current = self.world.receiver.current();
        let (kind, place) = match chance.between(0, 9) {
            0 | 1 => (SET_SENDER, chance.between(0, u64::from(COUNTERS)) as u32),
            2..=4 => (SET_RECEIVER, chance.between(0, u64::from(USED)) as u32),
            5 => (LEND, 0),
            _ => (SET_BYTE, self.world.receiver.place(current, chance.between(0, 6) as usize) as u32),
        };
        let other = Making::other_word(self.value(kind, place, line), chance);
        self.with(kind, place, line, if kind == LEND { other.min(STORE as u32) } else { other }, |making| {
            making.step(SEND, [chance.between(1, max) as u32, 0, 0], &[]);
            making.step(ASK, [line, 12, 0], &[]);
            making.data(line, chance.between(0, 255) as u32, chance.between(1, 9) as u32);
            let (round, quantum) = (making.world.receiver.turns.rounds[line as usize], making.world.receiver.plan.quanta[line as usize]);
            making.step(MARKER, [line, 0, 0], &record(&[line, round, quantum].map(u64::from)));
            making.take_or_run(chance);
        });
    }

    fn least_wraps(&self) -> u32 {
        self.stored_bytes.iter().map(|bytes| bytes / self.world.receiver.rings.size).min().unwrap_or(0)
    }
}

const STEPS: usize = 140;
const DAMAGES: usize = 6;
const LINES: [u64; 13] = [1, 2, 3, 4, 16, 5, 6, 8, 10, 13, 2, 1, 16];

/// A session of so many lines, damaged at its end. Answers how often its rings were gone round before.
fn session(making: &mut Making, at: usize, chance: &mut Chance) -> u32 {
    let lines = LINES[at];
    let max = chance.between(64, 200);
    let mut numbers = vec![lines, max, chance.between(1, 2)];
    // many lines have small quanta, so that full rounds end
    let widest = if lines > 4 { max + 9 } else { 2 * max };
    numbers.extend((0..lines).map(|_| chance.between(max, widest)));
    making.open(&record(&numbers), chance.between(max + 3, (4096 / lines).min(2 * max)) as u32);
    let (begun, loses) = (making.steps.len(), [0, 12, 5][at % 3]);
    while making.steps.len() < begun + STEPS {
        making.any_step(loses, chance);
    }
    if at + 3 >= LINES.len() && lines <= 2 {
        making.far_ahead(chance);
    }
    let wraps = making.least_wraps();
    for _ in 0..DAMAGES {
        // what was set back may not go with what was done meanwhile
        if making.world.receiver.is_valid() {
            making.damaged(chance);
        }
    }
    wraps
}

/// All sessions by chance. Answers in how many every ring was gone round.
pub fn sessions(making: &mut Making, chance: &mut Chance) -> usize {
    (0..LINES.len()).filter(|at| session(making, *at, chance) >= 1).count()
}
