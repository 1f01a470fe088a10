//! Times the proved take loop against the plain one: the same stored sessions, the same machine, both optimised, buffers cleared, turn about
//! in one run. Prints rows of the benchmark's table; those of the archive's takes called one by one stand beside the same plain loop.

use crate::answers::{kind, value, went, BEHIND, DATA, FULL};
use crate::bench::{plan, row, timed, Range, LINES, RANGES, TURNS};
use crate::chance::Chance;
use crate::paper::Sender;
use crate::stage::Receiver;
use crate::taking::StageRun;
use crate::{archive, plain};
use std::hint::black_box;

/// A line's store; and how many of them the sessions of a turn have among them, so that a turn is as long with few lines as with many.
const SIZE: usize = 65_536;
const RINGS: usize = 128;

type Takes = fn(&mut Receiver, &[u8], &mut [u8], &mut [u64]) -> StageRun;

/// A receiver whose rings are full.
struct Stored {
    receiver: Receiver,
    store: Vec<u8>,
    items: usize,
}

/// What a side has spent in a turn.
#[derive(Clone, Copy, Default)]
struct Spent {
    time: f64,
    takes: f64,
}

impl Spent {
    fn add(&mut self, more: Spent) {
        self.time += more.time;
        self.takes += more.takes;
    }
}

/// What a side works on and leaves.
#[derive(PartialEq)]
struct Desk {
    receiver: Receiver,
    store: Vec<u8>,
    out: Vec<u8>,
    log: Vec<u64>,
    run: StageRun,
}

impl Desk {
    fn new(lines: usize) -> Desk {
        let bytes = || vec![0; lines * SIZE];
        Desk { receiver: Receiver::default(), store: bytes(), out: bytes(), log: Vec::new(), run: StageRun { why: 0, taken: 0, bytes: 0 } }
    }

    /// The session laid out anew, output and log cleared: each side finds the same, in memory and in the caches.
    fn lay_out(&mut self, stored: &Stored) {
        self.log.clear();
        self.log.resize(stored.items, 0);
        self.out.fill(0);
        self.store.copy_from_slice(&stored.store);
        self.receiver = stored.receiver;
    }

    fn drain(&mut self, takes: Takes) {
        self.run = takes(&mut self.receiver, &self.store, &mut self.out, &mut self.log);
    }

    /// The nanoseconds of one run through a stored session, and its takes.
    fn time(&mut self, stored: &Stored, takes: Takes) -> Spent {
        self.lay_out(stored);
        let time = timed(|| black_box(&mut *self).drain(takes));
        Spent { time, takes: black_box(&*self).run.taken as f64 }
    }
}

fn ends(lines: usize) -> (Sender, Receiver) {
    let plan = plan(lines, 4);
    let (sender, receiver) = (Sender::open(&plan), Receiver::open(&plan, SIZE as u32));
    assert_eq!((sender.0, receiver.0), (0, 0));
    (sender.1, receiver.1)
}

/// A packet and what its send came to: its line, and whether markers are due.
struct Packet {
    line: u32,
    due: bool,
    bytes: Vec<u8>,
}

/// Sends until a packet finds no room, with the markers that are due; that packet is kept for the next filling.
fn fill(sender: &mut Sender, stored: &mut Stored, packet: &mut Packet, chance: &mut Chance, (low, high): Range) {
    while packet.bytes.is_empty() || stored.receiver.data(packet.line, &packet.bytes, &mut stored.store) == 0 {
        stored.items += usize::from(!packet.bytes.is_empty());
        for line in (0..sender.plan.lines).filter(|_| packet.due) {
            let (length, record) = sender.marker(line, &[0; 9]);
            stored.items += usize::from(stored.receiver.marker(line, &record[..length as usize], &mut stored.store) == 0);
        }
        let length = chance.between(low, high) as usize;
        let (line, due) = went(sender.send(length)).expect("a length in range");
        *packet = Packet { line, due, bytes: chance.bytes(length) };
    }
}

/// Filled, drained and filled again, so that the heads lie anywhere.
fn stored(seed: usize, lines: usize, range: Range) -> Stored {
    let chance = &mut Chance::new(2 * seed as u64 + 1); // odd, for a seed and the one above it can be the same
    let (mut sender, receiver) = ends(lines);
    let mut stored = Stored { receiver, store: vec![0; lines * SIZE], items: 0 };
    let mut packet = Packet { line: 0, due: false, bytes: Vec::new() };
    fill(&mut sender, &mut stored, &mut packet, chance, range);
    let mut log = vec![0; stored.items];
    stored.items -= stored.receiver.takes(&stored.store, &mut vec![0; lines * SIZE], &mut log).taken;
    fill(&mut sender, &mut stored, &mut packet, chance, range);
    stored
}

/// The archive's takes, called one by one.
fn one_by_one(receiver: &mut Receiver, store: &[u8], out: &mut [u8], log: &mut [u64]) -> StageRun {
    let mut bytes = 0;
    for (taken, place) in log.iter_mut().enumerate() {
        let word = archive::take(receiver, store, &mut out[bytes..]);
        if kind(word) > BEHIND {
            return StageRun { why: word, taken, bytes };
        }
        if kind(word) == DATA {
            bytes += value(word) as usize;
        }
        *place = word;
    }
    StageRun { why: FULL, taken: log.len(), bytes }
}

/// Every side must leave the same state, store, output and log.
fn check(stored: &Stored, lines: usize, sides: [Takes; 3]) {
    let desks = sides.map(|takes| {
        let mut desk = Desk::new(lines);
        desk.lay_out(stored);
        desk.drain(takes);
        desk
    });
    assert!(desks[0].run.taken > 0 && desks.iter().all(|desk| *desk == desks[0]), "the sides leave the same");
}

/// One turn: every session by every side. Nanoseconds a take, for each side.
fn turn(number: usize, desk: &mut Desk, sessions: &[Stored], sides: [Takes; 3]) -> [f64; 3] {
    let mut spent = [Spent::default(); 3];
    for session in sessions {
        for side in (0..3).map(|at| (number + at) % 3) {
            spent[side].add(desk.time(session, sides[side]));
        }
    }
    spent.map(|side| side.time / side.takes)
}

/// Nanoseconds a take of every turn, for each side.
fn measured(lines: usize, range: Range) -> [Vec<f64>; 3] {
    let sessions: Vec<Stored> = (1..=RINGS / lines).map(|seed| stored(seed, lines, range)).collect();
    let sides: [Takes; 3] = [archive::takes, plain::takes, one_by_one];
    sessions.iter().for_each(|session| check(session, lines, sides));
    let mut desk = Desk::new(lines);
    let times: Vec<[f64; 3]> = (0..TURNS).map(|number| turn(number, &mut desk, &sessions, sides)).collect();
    [0, 1, 2].map(|side| times.iter().map(|turn| turn[side]).collect())
}

pub fn takes() {
    let cases: Vec<(usize, Range)> = LINES.into_iter().flat_map(|lines| RANGES.map(|range| (lines, range))).collect();
    let times: Vec<[Vec<f64>; 3]> = cases.iter().map(|(lines, range)| measured(*lines, *range)).collect();
    for (call, side) in [("take loop", 0), ("take, one by one", 2)] {
        for ((lines, range), times) in cases.iter().zip(&times) {
            row(call, *lines, *range, times[side].clone(), times[1].clone());
        }
    }
}
