//! The second program: the bundle's records and its sender as the specification words them, and from those words alone (the receiver is in
//! stage.rs).
//! The records are slow and plain on purpose: numbers are taken as 128-bit values, and a record is judged by writing it out again. Sending
//! is there in both of the specification's forms: `Sender` is the first, with a counter for each line, and `Definition` the second, by the
//! bytes that each line has carried.

use crate::answers::{refusal, sent};

/// The table's numbers.
pub const PLAN: u32 = 1;
pub const STATE: u32 = 2;
pub const LINE: u32 = 3;
pub const LENGTH: u32 = 4;
pub const MARKER: u32 = 5;
pub const OTHER_LINE: u32 = 6;
pub const ROOM: u32 = 7;
pub const OUTPUT: u32 = 8;
pub const STORE: u32 = 9;
pub const COUNTER: u32 = 10;

/// Low seven bits first, the top bit of a byte set when another follows.
pub fn written(number: u128) -> Vec<u8> {
    let mut bytes = Vec::new();
    let mut rest = number;
    loop {
        let low = (rest & 0x7f) as u8;
        rest >>= 7;
        if rest == 0 {
            bytes.push(low);
            return bytes;
        }
        bytes.push(low | 0x80);
    }
}

/// A record: its numbers one behind another.
pub fn record(numbers: &[u64]) -> Vec<u8> {
    numbers.iter().flat_map(|number| written(u128::from(*number))).collect()
}

/// The number at the front of the bytes, and the bytes behind it. Only the shortest form of a number below 2^32 is one.
pub fn read(bytes: &[u8]) -> Option<(u128, &[u8])> {
    let length = bytes.iter().position(|byte| byte & 0x80 == 0)? + 1;
    if length > 16 {
        return None;
    }
    let number = bytes[..length].iter().rev().fold(0u128, |high, byte| high << 7 | u128::from(byte & 0x7f));
    let shortest = written(number) == bytes[..length];
    (shortest && number < 1 << 32).then_some((number, &bytes[length..]))
}

/// Every number of a record, or nothing where a byte is left that belongs to none.
pub fn numbers(mut bytes: &[u8]) -> Option<Vec<u128>> {
    let mut all = Vec::new();
    while !bytes.is_empty() {
        let (number, rest) = read(bytes)?;
        all.push(number);
        bytes = rest;
    }
    Some(all)
}

/// The numbers of a plan record that is in range.
fn plan_numbers(record: &[u8]) -> Option<Vec<u128>> {
    numbers(record).filter(|all| match all.as_slice() {
        [lines, max, interval, quanta @ ..] => {
            (1..=16).contains(lines)
                && (64..=9000).contains(max)
                && (1..=65535).contains(interval)
                && quanta.len() as u128 == *lines
                && quanta.iter().all(|quantum| (*max..=1_048_576).contains(quantum))
        }
        _ => false,
    })
}

pub fn check_plan(record: &[u8]) -> u32 {
    if plan_numbers(record).is_some() { 0 } else { PLAN }
}

/// The answer of an exported writer, and the output as it leaves it: a record goes to the front, unless something refuses it.
pub fn put(number: Option<u32>, record: &[u8], out: &[u8]) -> (u32, Vec<u8>) {
    let mut after = out.to_vec();
    if let Some(number) = number {
        return (refusal(number), after);
    }
    if out.len() < record.len() {
        return (refusal(OUTPUT), after);
    }
    after[..record.len()].copy_from_slice(record);
    (record.len() as u32, after)
}

fn put_marker(number: Option<u32>, line: u32, round: u32, counter: u32, out: &[u8]) -> (u32, Vec<u8>) {
    put(number, &record(&[u64::from(line), u64::from(round), u64::from(counter)]), out)
}

/// The standalone reading of a marker: line, round and counter, or the number.
pub fn read_marker(bytes: &[u8]) -> Result<[u64; 3], u32> {
    match numbers(bytes).as_deref() {
        Some([line, round, counter]) if *counter >= 1 && *counter <= 1_048_576 => {
            if *line < 16 { Ok([*line as u64, *round as u64, *counter as u64]) } else { Err(LINE) }
        }
        _ => Err(MARKER),
    }
}

/// Reads a plan record: the number, and the plan, all zeros where it is refused.
pub fn read_plan(bytes: &[u8]) -> (u32, Plan) {
    Plan::read(bytes).map_or((PLAN, Plan::default()), |plan| (0, plan))
}

/// Writes the record of a plan, where it is in range.
pub fn write_plan(plan: &Plan, out: &[u8]) -> (u32, Vec<u8>) {
    put((!plan.in_range()).then_some(PLAN), &plan.record(), out)
}

/// Reads a plan record and writes that plan.
pub fn copy_plan(bytes: &[u8], out: &[u8]) -> (u32, Vec<u8>) {
    Plan::read(bytes).map_or((refusal(PLAN), out.to_vec()), |plan| write_plan(&plan, out))
}

pub fn write_marker(line: u32, round: u32, counter: u32, out: &[u8]) -> (u32, Vec<u8>) {
    let number = if line >= 16 {
        Some(LINE)
    } else if counter == 0 || counter > 1_048_576 {
        Some(MARKER)
    } else {
        None
    };
    put_marker(number, line, round, counter, out)
}

/// As include/starkvitne.h has it.
#[repr(C)]
#[derive(Clone, Copy, Debug, Default, PartialEq, Eq)]
pub struct Plan {
    pub lines: u32,
    pub max: u32,
    pub interval: u32,
    pub quanta: [u32; 16],
}

/// The first form: the current line, the countdown, and a round and a counter for each line.
#[repr(C)]
#[derive(Clone, Copy, Debug, Default, PartialEq, Eq)]
pub struct Sender {
    pub plan: Plan,
    pub line: u32,
    pub countdown: u32,
    pub rounds: [u32; 16],
    pub counters: [u32; 16],
}

impl Plan {
    /// The plan of a record, entries from its lines on zero.
    pub fn read(record: &[u8]) -> Option<Plan> {
        let all = plan_numbers(record)?;
        let mut plan = Plan { lines: all[0] as u32, max: all[1] as u32, interval: all[2] as u32, quanta: [0; 16] };
        for (line, quantum) in all[3..].iter().enumerate() {
            plan.quanta[line] = *quantum as u32;
        }
        Some(plan)
    }

    /// Its record, in range or not.
    pub fn record(&self) -> Vec<u8> {
        let quanta = &self.quanta[..self.lines.min(16) as usize];
        record(&[self.lines, self.max, self.interval].iter().chain(quanta).map(|number| u64::from(*number)).collect::<Vec<u64>>())
    }

    pub fn in_range(&self) -> bool {
        (1..=16).contains(&self.lines)
            && (64..=9000).contains(&self.max)
            && (1..=65535).contains(&self.interval)
            && self.quanta[..self.lines as usize].iter().all(|quantum| (self.max..=1_048_576).contains(quantum))
    }
}

impl Sender {
    pub fn open(record: &[u8]) -> (u32, Sender) {
        let Some(plan) = Plan::read(record) else {
            return (PLAN, Sender::default());
        };
        let mut sender = Sender { plan, line: 0, countdown: plan.interval, rounds: [0; 16], counters: plan.quanta };
        sender.rounds[..plan.lines as usize].fill(1);
        (0, sender)
    }

    fn is_valid(&self) -> bool {
        self.plan.in_range()
            && self.line < self.plan.lines
            && (1..=self.plan.interval).contains(&self.countdown)
            && (0..self.plan.lines as usize).all(|line| (1..=self.plan.quanta[line]).contains(&self.counters[line]))
    }

    pub fn send(&mut self, length: usize) -> u32 {
        if !self.is_valid() {
            return refusal(STATE);
        }
        if length == 0 || length > self.plan.max as usize {
            return refusal(LENGTH);
        }
        let line = self.line as usize;
        let quantum = i64::from(self.plan.quanta[line]);
        let mut counter = i64::from(self.counters[line]) - length as i64;
        let mut due = false;
        if counter <= 0 {
            counter += quantum;
            if counter <= 0 {
                return refusal(COUNTER);
            }
            self.rounds[line] = self.rounds[line].wrapping_add(1);
            self.line = (self.line + 1) % self.plan.lines;
            if self.line == 0 {
                self.countdown -= 1;
                if self.countdown == 0 {
                    self.countdown = self.plan.interval;
                    due = true;
                }
            }
        }
        self.counters[line] = counter as u32;
        sent(line as u32, due)
    }

    pub fn marker(&self, line: u32, out: &[u8]) -> (u32, Vec<u8>) {
        let number = if !self.is_valid() {
            Some(STATE)
        } else if line >= self.plan.lines {
            Some(LINE)
        } else {
            None
        };
        let at = line.min(15) as usize;
        put_marker(number, line, self.rounds[at], self.counters[at], out)
    }
}

/// The second form, for every history from opening: what each line has carried, in numbers that do not wrap.
pub struct Definition {
    plan: Plan,
    carried: [u128; 16],
    /// Of these the first so many were over at the opening.
    full_rounds: u128,
    rounds_before: u128,
}

impl Definition {
    /// From the opening, where the round is 1; or from the moment at which each line has carried its quantum so often that the round is this.
    pub fn open_at(plan: Plan, round: u32) -> Self {
        let rounds_before = u128::from(round) - 1;
        let carried = plan.quanta.map(|quantum| rounds_before * u128::from(quantum));
        Definition { plan, carried, full_rounds: rounds_before, rounds_before }
    }

    fn lines(&self) -> std::ops::Range<usize> {
        0..self.plan.lines as usize
    }

    fn quantum(&self, line: usize) -> u128 {
        u128::from(self.plan.quanta[line])
    }

    fn round(&self, line: usize) -> u128 {
        self.carried[line] / self.quantum(line) + 1
    }

    fn counter(&self, line: usize) -> u128 {
        self.quantum(line) - self.carried[line] % self.quantum(line)
    }

    /// Where a line stands: what it has carried.
    pub fn position(&self, line: usize) -> u128 {
        self.carried[line]
    }

    /// Whether every line's round is this or later.
    pub fn rounds_from(&self, round: u128) -> bool {
        self.lines().all(|line| self.round(line) >= round)
    }

    /// Lowest round, lowest number on a tie.
    fn choice(&self) -> usize {
        self.lines().min_by_key(|line| self.round(*line)).expect("a plan has a line")
    }

    /// The line of a packet, with markers due when it ends a full round whose number since the opening is a multiple of the interval; or the refusal.
    pub fn send(&mut self, length: usize) -> u32 {
        if length == 0 || length > self.plan.max as usize {
            return refusal(LENGTH);
        }
        let line = self.choice();
        let before = self.round(line);
        self.carried[line] += length as u128;
        if self.round(line) == before || self.choice() != 0 {
            return sent(line as u32, false);
        }
        self.full_rounds += 1;
        self.check_share();
        sent(line as u32, self.left_of_interval() == u128::from(self.plan.interval))
    }

    /// At the end of a full round each line has carried as many quanta, and less than one largest packet more.
    fn check_share(&self) {
        for line in self.lines() {
            let quanta = self.full_rounds * self.quantum(line);
            assert!(quanta <= self.carried[line] && self.carried[line] < quanta + u128::from(self.plan.max), "the share of line {line}");
        }
    }

    /// How many full rounds there are still to come until markers are due.
    fn left_of_interval(&self) -> u128 {
        let interval = u128::from(self.plan.interval);
        interval - (self.full_rounds - self.rounds_before) % interval
    }

    /// What a marker of the line holds.
    pub fn marker(&self, line: usize) -> Vec<u8> {
        [line as u128, self.round(line) % (1 << 32), self.counter(line)].iter().flat_map(|number| written(*number)).collect()
    }

    /// What a sender's state must show.
    pub fn shows(&self, sender: &Sender) -> bool {
        sender.line as usize == self.choice()
            && u128::from(sender.countdown) == self.left_of_interval()
            && self.lines().all(|line| {
                u128::from(sender.rounds[line]) == self.round(line) % (1 << 32) && u128::from(sender.counters[line]) == self.counter(line)
            })
    }
}
