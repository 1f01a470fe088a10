//! A session of both ends in its parts (play.rs plays it): a sender, lines that are queues and may lose, and a pair of receivers. Beside them
//! stand both ends by positions, which say what every call must answer, and what each line has lost, which says what every marker must report.

use crate::answers::FULL;
use crate::cases::differs;
use crate::chance::Chance;
use crate::counts::Counts;
use crate::pair::{opened, Pair};
use crate::paper::record;
use crate::positions::FarEnd;
use crate::sending::{highest, Booth, LOWEST};
use crate::taking::{Outcome, StageRun};
use std::collections::VecDeque;

const BOOTH: &str = "in them, at the booth";
const ON_LINES: &str = "in them, on the lines";

#[derive(Clone)]
pub enum Item {
    /// By its number in sent order.
    Packet(usize),
    Marker(Mark),
}

/// A marker's record and where its sender stood; once it is stored, the bytes lost before it that no marker before it reports; whether its line
/// loses nothing behind it; whether it has come before.
#[derive(Clone)]
pub struct Mark {
    record: Vec<u8>,
    position: u128,
    missing: u64,
    mends: bool,
    again: bool,
}

#[derive(Default)]
pub struct Line {
    pub under_way: VecDeque<Item>,
    pub held: VecDeque<Item>,
    pub unreported: u64,
    /// One item in so many is lost.
    pub loses: Option<u64>,
    pub mended: bool,
    /// The last marker that was taken.
    yielded: Option<Mark>,
}

pub struct Session {
    pub booth: Booth,
    pub pair: Pair,
    pub far: FarEnd,
    /// The store as it was at the opening.
    pub before: Vec<u8>,
    pub lines: Vec<Line>,
    pub packets: Vec<Vec<u8>>,
    pub handed: Vec<usize>,
    /// How many were handed out when the last line yielded its mending marker.
    pub in_order_from: Option<usize>,
    /// Of sixteen steps so many are takes.
    pub takes: u64,
}

/// A plan whose rounds mostly pass fast.
fn plan(chance: &mut Chance) -> Vec<u64> {
    let lines = chance.cornered(1, 16, 16);
    let most = if chance.one_in(8) { 9000 } else { 200 };
    let largest = if chance.one_in(3) { 9000 } else { most };
    let max = chance.cornered(64, most, largest);
    let widest = if chance.one_in(8) { 1_048_576 } else { max * chance.between(1, 4) };
    let mut all = vec![lines, max, chance.cornered(1, 6, 65535)];
    let highest = if chance.one_in(4) { 1_048_576 } else { widest };
    all.extend((0..lines).map(|_| chance.cornered(max, widest, highest)));
    all
}

/// Mostly small, so that rings fill and wrap.
fn store_size(max: u64, chance: &mut Chance) -> u64 {
    let most = match chance.between(0, 99) {
        0 => return 65536,
        1..=3 => 65536,
        4..=11 => max + 3,
        12..=30 => max + 12,
        31..=65 => 2 * max,
        _ => 6 * max,
    };
    chance.between(max + 3, most.clamp(max + 3, 65536))
}

/// What both ends open on: the plan record, and S.
fn opening(chance: &mut Chance) -> (Vec<u8>, u32) {
    let (plan, size) = match chance.between(0, 499) {
        0..=9 => (LOWEST.to_vec(), 67),
        10 => (highest(), 65536),
        _ => {
            let plan = plan(chance);
            let size = store_size(plan[1], chance);
            (plan, size)
        }
    };
    (record(&plan), size as u32)
}

impl Session {
    pub fn open(chance: &mut Chance, lossy: bool) -> Session {
        let (record, size) = opening(chance);
        let (number, mut receiver) = opened(&record, size);
        assert_eq!(number, 0);
        // both ends as they are when each line has carried its quantum so many times, or as opened
        let round = if chance.one_in(2) { u32::MAX - chance.between(0, 9) as u32 } else { 1 };
        receiver.turns.rounds[..receiver.plan.lines as usize].fill(round);
        receiver.turns.round = round;
        let before = chance.bytes((receiver.plan.lines * receiver.rings.size) as usize);
        let mut lines: Vec<Line> = receiver.lines().map(|_| Line::default()).collect();
        for line in lines.iter_mut().filter(|_| lossy) {
            line.loses = Some(chance.between(2, 30));
        }
        Session {
            booth: Booth::open(&record, round),
            pair: Pair::new(receiver, before.clone()),
            far: FarEnd::open_at(receiver.plan, receiver.rings.size, round),
            before,
            lines,
            packets: Vec::new(),
            handed: Vec::new(),
            in_order_from: None,
            takes: chance.between(1, 6),
        }
    }

    pub fn max(&self) -> u64 {
        u64::from(self.booth.sender.plan.max)
    }

    pub fn any_line(&self, chance: &mut Chance) -> usize {
        chance.between(0, self.lines.len() as u64 - 1) as usize
    }

    pub fn send(&mut self, chance: &mut Chance, counts: &mut Counts) {
        let most = if chance.one_in(4) { 64 } else { self.max() };
        let length = if chance.one_in(16) { self.max() } else { chance.between(1, most) };
        let packet = chance.bytes(length as usize);
        let (line, due) = self.booth.send(packet.len(), BOOTH, counts).expect("a length in range");
        self.lines[line as usize].under_way.push_back(Item::Packet(self.packets.len()));
        self.packets.push(packet);
        if due {
            self.mark_all(false, counts);
        }
    }

    /// A send, or a marker asked for, that must be refused.
    pub fn refused_call(&mut self, line: usize, chance: &mut Chance, counts: &mut Counts) {
        let asked = match chance.between(0, 3) {
            0 => self.booth.send(0, BOOTH, counts).is_ok(),
            1 => self.booth.send(self.max() as usize + 1, BOOTH, counts).is_ok(),
            2 => self.booth.marker(chance.between(self.lines.len() as u64, 20) as u32, &[9; 12], BOOTH, counts).is_some(),
            _ => self.booth.marker(line as u32, &[9; 2], BOOTH, counts).is_some(),
        };
        assert!(!asked, "a call that must be refused");
    }

    pub fn mark(&mut self, line: usize, mends: bool, counts: &mut Counts) {
        let record = self.booth.marker(line as u32, &[0; 9], BOOTH, counts).expect("nine bytes are enough");
        let position = self.booth.definition.position(line);
        self.lines[line].under_way.push_back(Item::Marker(Mark { record, position, missing: 0, mends, again: false }));
    }

    pub fn mark_all(&mut self, mends: bool, counts: &mut Counts) {
        (0..self.lines.len()).for_each(|line| self.mark(line, mends, counts));
    }

    /// Holds an answer against the one by positions, and the state against what the positions show.
    fn hold<A: PartialEq + std::fmt::Debug>(&self, call: &str, answer: A, expected: A) {
        if answer != expected || !self.far.shows(&self.pair.receiver) {
            differs(call, format!("by positions: {answer:?} and {expected:?}, and then {:?}", self.pair.receiver));
        }
    }

    pub fn data(&mut self, line: u32, bytes: &[u8], counts: &mut Counts) -> u32 {
        let number = self.pair.data(line, bytes);
        let expected = self.far.data(line, bytes);
        self.hold("data", number, expected);
        counts.arrival("in them, data", number);
        number
    }

    pub fn marker(&mut self, line: u32, bytes: &[u8], position: u128, counts: &mut Counts) -> u32 {
        let number = self.pair.marker(line, bytes);
        let expected = self.far.marker(line, bytes, position);
        self.hold("a marker", number, expected);
        counts.arrival("in them, markers", number);
        number
    }

    /// The oldest item under way on a line arrives or is lost. One that is refused for room is lost too, or keeps its place and comes again.
    /// Answers whether it has left its line.
    pub fn arrive(&mut self, line: usize, chance: &mut Chance, counts: &mut Counts) -> bool {
        let loses = self.lines[line].loses;
        let Some(item) = self.lines[line].under_way.pop_front() else {
            return false;
        };
        let mut lost = loses.is_some_and(|n| chance.one_in(n));
        if !lost {
            let number = match &item {
                Item::Packet(packet) => {
                    let bytes = self.packets[*packet].clone();
                    self.data(line as u32, &bytes, counts)
                }
                Item::Marker(mark) => self.marker(line as u32, &mark.record, mark.position, counts),
            };
            lost = number != 0;
            if lost && (loses.is_none() || chance.one_in(2)) {
                self.lines[line].under_way.push_front(item);
                return false;
            }
        }
        self.settle(line, item, lost, counts);
        true
    }

    /// An item has arrived or is lost: what its line has lost is kept until a marker is stored, which must report it.
    fn settle(&mut self, line: usize, mut item: Item, lost: bool, counts: &mut Counts) {
        let at = &mut self.lines[line];
        match &mut item {
            Item::Packet(packet) if lost => at.unreported += self.packets[*packet].len() as u64,
            Item::Marker(mark) if !lost => mark.missing = std::mem::take(&mut at.unreported),
            _ => {}
        }
        if lost {
            counts.count(ON_LINES, if matches!(item, Item::Packet(_)) { "packet lost" } else { "marker lost" });
        } else {
            at.held.push_back(item);
        }
    }

    /// The last marker that a line has yielded comes once more.
    pub fn again(&mut self, line: usize, counts: &mut Counts) {
        if let Some(mark) = self.lines[line].yielded.clone() {
            if self.marker(line as u32, &mark.record, mark.position, counts) == 0 {
                self.lines[line].held.push_back(Item::Marker(Mark { again: true, missing: 0, mends: false, ..mark }));
                counts.count(ON_LINES, "marker again");
            }
        }
    }

    /// What a take comes to is held against what its line holds and has lost.
    fn taken(&mut self, outcome: Outcome, bytes: &[u8]) {
        let line = outcome.line().expect("something was taken");
        match (self.lines[line].held.pop_front(), outcome) {
            (Some(Item::Packet(packet)), Outcome::Data { .. }) if bytes == self.packets[packet] => self.handed.push(packet),
            (Some(Item::Marker(mark)), Outcome::Behind { .. } | Outcome::Marker { missing: 0, .. }) if mark.again => {}
            (Some(Item::Marker(mark)), Outcome::Marker { missing, .. }) if !mark.again && mark.missing == missing => {
                self.lines[line].mended |= mark.mends;
                self.lines[line].yielded = Some(mark);
                if self.in_order_from.is_none() && self.lines.iter().all(|line| line.mended) {
                    self.in_order_from = Some(self.handed.len());
                }
            }
            _ => differs("a take, by what its line holds and has lost", format!("{:?}: {outcome:?}", self.pair.receiver)),
        }
    }

    /// One take. Answers whether it took something.
    pub fn take(&mut self, room: usize, chance: &mut Chance, counts: &mut Counts) -> bool {
        let (word, out) = self.pair.take(&chance.bytes(room));
        let (outcome, bytes) = self.far.take(room);
        self.hold("a take", (word, &out[..bytes.len().min(room)]), (outcome.word(), &bytes[..]));
        counts.word("in them, takes", word);
        if outcome.is_taken() {
            self.taken(outcome, &bytes);
        }
        outcome.is_taken()
    }

    pub fn run(&mut self, room: usize, chance: &mut Chance, counts: &mut Counts) {
        let most = chance.between(0, 12);
        let (run, out, log) = self.pair.takes(&chance.bytes(room), &chance.words(most));
        let (mut why, mut written, mut taken) = (FULL, 0, Vec::new());
        while taken.len() < log.len() {
            let (outcome, bytes) = self.far.take(room - written);
            if !outcome.is_taken() {
                why = outcome.word();
                break;
            }
            written += bytes.len();
            taken.push((outcome, bytes));
        }
        let words: Vec<u64> = taken.iter().map(|(outcome, _): &(Outcome, _)| outcome.word()).collect();
        let all: Vec<u8> = taken.iter().flat_map(|(_, bytes)| bytes.clone()).collect();
        let expected = StageRun { why, taken: words.len(), bytes: written };
        self.hold("a run of takes", (run, &log[..run.taken], &out[..run.bytes]), (expected, &words[..], &all[..]));
        counts.run("in them, runs ended", run.why);
        for (outcome, bytes) in &taken {
            counts.word("in them, takes of runs", outcome.word());
            self.taken(*outcome, bytes);
        }
    }
}
