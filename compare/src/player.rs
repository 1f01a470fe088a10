//! A recording: steps through both ends, and what each comes to, a line a step. A step is its kind, three numbers, and a row of bytes with its
//! length in front, every number as it is on the wire. Numbers that a kind has no use for are 0, and a size above what there is stands for
//! all there is.
//!
//!      0 OPEN          S . .                 both ends open on the plan record that the bytes are
//!      1 REOPEN        S . .                 both ends open on the plan that the sender holds
//!      2 SEND          length . .            a packet is sent
//!      3 ASK           line room .           a marker is asked for, into so many bytes of the output
//!      4 WRITE         . room .              the sender's plan is written, into so many
//!      5 SET_SENDER    row line value        a figure of the sender's state is set (the rows are at `sender_figure`)
//!      6 DATA          line number length    data arrives (`packet` has its bytes)
//!      7 MARKER        line . .              the bytes arrive as a marker
//!      8 TAKE          room . .              a take, into so many bytes of the output
//!      9 RUN           room words .          a run of takes, with a log of so many words
//!     10 SET_RECEIVER  row line value        a figure of the receiver's state is set
//!     11 SET_BYTE      place value .         a byte of the store is set
//!     12 LEND          length . .            so many bytes of the store are lent from here on
//!
//! A line says the kind and what was answered; then digests, of the log and of the output where a call is lent them, and of the sender, the
//! receiver and the store. The store is kept from step to step. The first line is what both ends are before the first step, opened on no
//! record; what is no step ends all with `bad input`.

use crate::answers::{self, done, FULL};
use crate::paper::{check_plan, read, write_plan, Plan, Sender};
use crate::stage::Receiver;
use crate::taking::{Outcome, StageRun};

pub const OPEN: u32 = 0;
pub const REOPEN: u32 = 1;
pub const SEND: u32 = 2;
pub const ASK: u32 = 3;
pub const WRITE: u32 = 4;
pub const SET_SENDER: u32 = 5;
pub const DATA: u32 = 6;
pub const MARKER: u32 = 7;
pub const TAKE: u32 = 8;
pub const RUN: u32 = 9;
pub const SET_RECEIVER: u32 = 10;
pub const SET_BYTE: u32 = 11;
pub const LEND: u32 = 12;

/// The rows of figures. The sender's and the receiver's own share their numbers.
pub const LINES: u32 = 0;
pub const MAX: u32 = 1;
pub const INTERVAL: u32 = 2;
pub const CURRENT: u32 = 3;
pub const COUNTDOWN: u32 = 4;
pub const SIZE: u32 = 3;
pub const ROUND: u32 = 4;
pub const QUANTA: u32 = 5;
pub const ROUNDS: u32 = 6;
pub const COUNTERS: u32 = 7;
pub const HEADS: u32 = 8;
pub const USED: u32 = 9;

/// Bytes of store, of output and of data, and words of a log. Store, output and log hold 9s at first, the latter two before each call.
pub const STORE: usize = 5000;
pub const OUTPUT: usize = 2048;
pub const WORDS: usize = 64;
const MOST_DATA: usize = 1024;
pub const UNUSED: u8 = 9;

/// What a recording must bring about, by kind: words of the answer, and each of these numbers behind them. 10 is not among it, as no state
/// brings it about.
const WANTED: [(u32, &str, &[u32]); 20] = [
    (OPEN, "plan    0 0 opened  0", &[0, 1]),
    (OPEN, "plan    1 0 opened  1", &[1]),
    (REOPEN, "opened  0", &[0, 1]),
    (REOPEN, "opened  1", &[1]),
    (SEND, "sent    0", &[0, 1]),
    (SEND, "sent    15", &[0, 1]),
    (SEND, "refused", &[2, 4]),
    (ASK, "written", &[3, 4, 8]),
    (ASK, "refused", &[2, 3, 8]),
    (WRITE, "written", &[8]),
    (WRITE, "refused", &[1, 8]),
    (DATA, "arrived", &[0, 2, 3, 4, 7, 9]),
    (MARKER, "arrived", &[0, 2, 3, 5, 6, 7, 9]),
    (TAKE, "packet", &[0, 1, 2, 3]),
    (TAKE, "missing 0", &[0, 500]),
    (TAKE, "behind", &[0, 1]),
    (TAKE, "waiting", &[0, 1]),
    (TAKE, "refused", &[2, 8, 9]),
    (RUN, "takes   0 0 refused", &[2, 8, 9]),
    (RUN, "takes   0 0 waiting", &[0, 1]),
];
/// How runs of takes must end, of one take or more.
const ENDS: [&str; 3] = ["full", "waiting", "refused 8"];

#[derive(Clone)]
pub struct Step {
    pub kind: u32,
    pub numbers: [u32; 3],
    pub bytes: Vec<u8>,
}

impl Step {
    /// The step at the front of the bytes, and the bytes behind it.
    fn read(mut bytes: &[u8]) -> Option<(Step, &[u8])> {
        let mut all = [0; 5];
        for number in &mut all {
            let (value, rest) = read(bytes)?;
            (*number, bytes) = (value as u32, rest);
        }
        let [kind, a, b, c, size] = all;
        let whole = kind <= LEND && size as usize <= bytes.len();
        whole.then(|| {
            let (own, rest) = bytes.split_at(size as usize);
            (Step { kind, numbers: [a, b, c], bytes: own.to_vec() }, rest)
        })
    }
}

/// The steps of a recording, and whether there is nothing behind the last.
pub fn steps(mut input: &[u8]) -> (Vec<Step>, bool) {
    let mut all = Vec::new();
    while let Some((step, rest)) = Step::read(input) {
        all.push(step);
        input = rest;
    }
    (all, input.is_empty())
}

/// Data by its number: the first byte is the number, each is 7 more than the one before.
pub fn packet(number: u32, length: usize) -> Vec<u8> {
    (0..length.min(MOST_DATA)).map(|at| (number as usize + 7 * at) as u8).collect()
}

/// A row or a line that there is not has no figure.
pub fn sender_figure(sender: &mut Sender, row: u32, line: usize) -> Option<&mut u32> {
    Some(match row {
        _ if line >= 16 => return None,
        LINES => &mut sender.plan.lines,
        MAX => &mut sender.plan.max,
        INTERVAL => &mut sender.plan.interval,
        CURRENT => &mut sender.line,
        COUNTDOWN => &mut sender.countdown,
        QUANTA => &mut sender.plan.quanta[line],
        ROUNDS => &mut sender.rounds[line],
        COUNTERS => &mut sender.counters[line],
        _ => return None,
    })
}

pub fn receiver_figure(receiver: &mut Receiver, row: u32, line: usize) -> Option<&mut u32> {
    Some(match row {
        _ if line >= 16 => return None,
        LINES => &mut receiver.plan.lines,
        MAX => &mut receiver.plan.max,
        INTERVAL => &mut receiver.plan.interval,
        SIZE => &mut receiver.rings.size,
        ROUND => &mut receiver.turns.round,
        QUANTA => &mut receiver.plan.quanta[line],
        ROUNDS => &mut receiver.turns.rounds[line],
        COUNTERS => &mut receiver.turns.counters[line],
        HEADS => &mut receiver.rings.heads[line],
        USED => &mut receiver.rings.used[line],
        _ => return None,
    })
}

/// The calls, as the archives answer them.
pub trait Calls {
    fn check_plan(&self, record: &[u8]) -> u32;
    fn write_plan(&self, plan: &Plan, out: &mut [u8]) -> u32;
    fn open_sender(&self, sender: &mut Sender, record: &[u8]) -> u32;
    fn open_receiver(&self, receiver: &mut Receiver, record: &[u8], size: u32) -> u32;
    fn send(&self, sender: &mut Sender, length: usize) -> u32;
    fn ask(&self, sender: &Sender, line: u32, out: &mut [u8]) -> u32;
    fn data(&self, receiver: &mut Receiver, line: u32, bytes: &[u8], store: &mut [u8]) -> u32;
    fn marker(&self, receiver: &mut Receiver, line: u32, bytes: &[u8], store: &mut [u8]) -> u32;
    fn take(&self, receiver: &mut Receiver, store: &[u8], out: &mut [u8]) -> u64;
    fn takes(&self, receiver: &mut Receiver, store: &[u8], out: &mut [u8], log: &mut [u64]) -> StageRun;
}

/// The second program's.
pub struct Second;

impl Calls for Second {
    fn check_plan(&self, record: &[u8]) -> u32 {
        check_plan(record)
    }

    fn write_plan(&self, plan: &Plan, out: &mut [u8]) -> u32 {
        let (answer, after) = write_plan(plan, out);
        out.copy_from_slice(&after);
        answer
    }

    fn open_sender(&self, sender: &mut Sender, record: &[u8]) -> u32 {
        let (number, opened) = Sender::open(record);
        *sender = opened;
        done(number)
    }

    fn open_receiver(&self, receiver: &mut Receiver, record: &[u8], size: u32) -> u32 {
        let (number, opened) = Receiver::open(record, size);
        *receiver = opened;
        done(number)
    }

    fn send(&self, sender: &mut Sender, length: usize) -> u32 {
        sender.send(length)
    }

    fn ask(&self, sender: &Sender, line: u32, out: &mut [u8]) -> u32 {
        let (answer, after) = sender.marker(line, out);
        out.copy_from_slice(&after);
        answer
    }

    fn data(&self, receiver: &mut Receiver, line: u32, bytes: &[u8], store: &mut [u8]) -> u32 {
        done(receiver.data(line, bytes, store))
    }

    fn marker(&self, receiver: &mut Receiver, line: u32, bytes: &[u8], store: &mut [u8]) -> u32 {
        done(receiver.marker(line, bytes, store))
    }

    fn take(&self, receiver: &mut Receiver, store: &[u8], out: &mut [u8]) -> u64 {
        receiver.take(store, out).word()
    }

    fn takes(&self, receiver: &mut Receiver, store: &[u8], out: &mut [u8], log: &mut [u64]) -> StageRun {
        receiver.takes(store, out, log)
    }
}

/// Each number in turn is added to the digest so far, times a constant, modulo the largest prime below 2^40.
fn digest(all: impl Iterator<Item = u64>) -> String {
    let prime = (1u128 << 40) - 87;
    format!("{:010x}", all.fold(0, |so_far, number| (so_far * 65_599 + u128::from(number) + 1) % prime))
}

fn figures(plan: &Plan, alone: [u32; 2], rows: &[&[u32; 16]]) -> String {
    let all = [plan.lines, plan.max, plan.interval].into_iter().chain(plan.quanta).chain(alone);
    digest(all.chain(rows.iter().flat_map(|row| row.iter().copied())).map(u64::from))
}

/// An answer: a word and two numbers, 0 where it has none.
fn said(word: &str, a: u64, b: u64) -> String {
    format!(" {word:<8}{a} {b}")
}

fn refused(number: u32) -> String {
    said("refused", number.into(), 0)
}

fn sent(answer: u32) -> String {
    answers::went(answer).map_or_else(refused, |(line, due)| said("sent", line.into(), due.into()))
}

fn written(answer: u32) -> String {
    answers::said(answer).map_or_else(refused, |length| said("written", length, 0))
}

fn arrived(answer: u32) -> String {
    said("arrived", answers::number(answer).into(), 0)
}

/// What a take's word says.
fn taken(word: u64) -> String {
    match Outcome::of(word) {
        Outcome::Data { line, length } => said("packet", line as u64, length as u64),
        Outcome::Marker { line, missing } => said("missing", line as u64, missing),
        Outcome::Behind { line } => said("behind", line as u64, 0),
        Outcome::Waiting { line } => said("waiting", line as u64, 0),
        Outcome::Refused(number) => refused(number),
    }
}

/// What a run's word says of how it ended.
fn ended(why: u64) -> String {
    if why == FULL { said("full", 0, 0) } else { taken(why) }
}

/// Both ends, the store and how much of it is lent, and the output of the last step.
pub struct World {
    pub sender: Sender,
    pub receiver: Receiver,
    pub lent: usize,
    pub store: Vec<u8>,
    pub out: Vec<u8>,
}

impl World {
    pub fn new() -> World {
        World { sender: Sender::default(), receiver: Receiver::default(), lent: 0, store: vec![UNUSED; STORE], out: vec![UNUSED; OUTPUT] }
    }

    fn open(&mut self, calls: &dyn Calls, record: &[u8], size: u32) -> String {
        let (booth, stage) = (calls.open_sender(&mut self.sender, record), calls.open_receiver(&mut self.receiver, record, size));
        said("opened", answers::number(booth).into(), answers::number(stage).into())
    }

    fn run(&mut self, calls: &dyn Calls, room: usize, words: usize) -> String {
        let (store, mut log) = (&self.store[..self.lent], vec![u64::from(UNUSED); WORDS]);
        let run = calls.takes(&mut self.receiver, store, &mut self.out[..room], &mut log[..words]);
        said("takes", run.taken as u64, run.bytes as u64) + &ended(run.why) + " " + &digest(log.into_iter())
    }

    /// What a call answers that is lent an output.
    fn write(&mut self, calls: &dyn Calls, step: &Step) -> String {
        let [a, b, _] = step.numbers;
        let room = |asked: u32| (asked as usize).min(OUTPUT);
        match step.kind {
            ASK => written(calls.ask(&self.sender, a, &mut self.out[..room(b)])),
            WRITE => written(calls.write_plan(&self.sender.plan, &mut self.out[..room(b)])),
            TAKE => taken(calls.take(&mut self.receiver, &self.store[..self.lent], &mut self.out[..room(a)])),
            _ => self.run(calls, room(a), (b as usize).min(WORDS)),
        }
    }

    fn set(&mut self, step: &Step) {
        let [a, b, value] = step.numbers;
        match step.kind {
            SET_SENDER => sender_figure(&mut self.sender, a, b as usize).into_iter().for_each(|figure| *figure = value),
            SET_RECEIVER => receiver_figure(&mut self.receiver, a, b as usize).into_iter().for_each(|figure| *figure = value),
            SET_BYTE => self.store[..self.lent].get_mut(a as usize).into_iter().for_each(|byte| *byte = b as u8),
            _ => self.lent = (a as usize).min(STORE),
        }
    }

    /// What a step answers; nothing where it sets something.
    pub fn play(&mut self, calls: &dyn Calls, step: &Step) -> String {
        let [a, b, c] = step.numbers;
        let lent = self.lent;
        self.out.fill(UNUSED);
        match step.kind {
            OPEN => said("plan", calls.check_plan(&step.bytes).into(), 0) + &self.open(calls, &step.bytes, a),
            // opening on a plan's record, in range or not, comes to opening on the plan
            REOPEN => self.open(calls, &self.sender.plan.record(), a),
            SEND => sent(calls.send(&mut self.sender, a as usize)),
            DATA => arrived(calls.data(&mut self.receiver, a, &packet(b, c as usize), &mut self.store[..lent])),
            MARKER => arrived(calls.marker(&mut self.receiver, a, &step.bytes, &mut self.store[..lent])),
            ASK | WRITE | TAKE | RUN => self.write(calls, step) + " " + &digest(self.out.iter().copied().map(u64::from)),
            _ => {
                self.set(step);
                String::new()
            }
        }
    }

    /// Digests of all that is left.
    pub fn left(&self) -> String {
        let (sender, receiver) = (&self.sender, &self.receiver);
        let all = [
            figures(&sender.plan, [sender.line, sender.countdown], &[&sender.rounds, &sender.counters]),
            figures(&receiver.plan, [receiver.rings.size, receiver.turns.round], &[&receiver.turns.rounds, &receiver.turns.counters, &receiver.rings.heads, &receiver.rings.used]),
            digest(self.store.iter().copied().map(u64::from)),
        ];
        all.join(" ")
    }
}

/// What a whole input prints.
pub fn printed(input: &[u8], calls: &dyn Calls) -> String {
    let mut world = World::new();
    let (steps, whole) = steps(input);
    let first = Step { kind: OPEN, numbers: [0; 3], bytes: Vec::new() };
    let mut line = |step: &Step| format!("{}{} {}\n", step.kind, world.play(calls, step), world.left());
    let lines: String = [first].iter().chain(&steps).map(|step| line(step)).collect();
    lines + if whole { "" } else { "bad input\n" }
}

/// What a recording must bring about and does not, given what it prints.
pub fn unseen(output: &str) -> Vec<String> {
    let padded = |words: &str| if words.contains(' ') { format!("{words} ") } else { format!("{words:<8}") };
    let wanted = WANTED.iter().flat_map(|(kind, words, all)| all.iter().map(move |number| format!("{kind} {}{number} ", padded(words))));
    let unseen = wanted.filter(|start| !output.lines().any(|line| line.starts_with(start)));
    let ended = |end: &str| output.lines().any(|line| line.starts_with("9 takes") && !line.starts_with("9 takes   0") && line.contains(end));
    unseen.chain(ENDS.iter().filter(|end| !ended(end)).map(|end| format!("a run of takes that ends {end}"))).collect()
}
