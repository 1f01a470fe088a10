//! The second program's takes, from the specification's words alone: one item of the current line, and runs of such takes.

use crate::answers::FULL;
use crate::paper::{OUTPUT, STORE};
use crate::stage::{Item, Receiver};

/// What a take comes to.
#[derive(Clone, Copy, Debug, PartialEq, Eq)]
pub enum Outcome {
    Data { line: usize, length: usize },
    Marker { line: usize, missing: u64 },
    Behind { line: usize },
    Waiting { line: usize },
    Refused(u32),
}

impl Outcome {
    /// Whether an item was taken.
    pub fn is_taken(self) -> bool {
        !matches!(self, Outcome::Waiting { .. } | Outcome::Refused(_))
    }

    /// The line that it was of.
    pub fn line(self) -> Option<usize> {
        match self {
            Outcome::Data { line, .. } | Outcome::Marker { line, .. } | Outcome::Behind { line } | Outcome::Waiting { line } => Some(line),
            Outcome::Refused(_) => None,
        }
    }
}

/// What a run of takes comes to, as the archive answers it: `FULL` where the log is full, or else the word of the outcome that stopped it; how many
/// takes there were, and how many bytes they wrote.
#[repr(C)]
#[derive(Clone, Copy, Debug, PartialEq, Eq)]
pub struct StageRun {
    pub why: u64,
    pub taken: usize,
    pub bytes: usize,
}

impl Receiver {
    pub fn take(&mut self, store: &[u8], out: &mut [u8]) -> Outcome {
        if let Some(number) = self.refusal(store) {
            return Outcome::Refused(number);
        }
        let line = self.current();
        if self.rings.used[line] == 0 {
            return Outcome::Waiting { line };
        }
        let Some((item, all)) = self.head_item(line, store) else {
            return Outcome::Refused(STORE);
        };
        let outcome = match item {
            Item::Data(bytes) if out.len() < bytes.len() => return Outcome::Refused(OUTPUT),
            Item::Data(bytes) => {
                out[..bytes.len()].copy_from_slice(&bytes);
                self.charge(line, bytes.len());
                Outcome::Data { line, length: bytes.len() }
            }
            Item::Marker { round, counter } => self.apply(line, round, counter),
        };
        self.rings.heads[line] = (self.rings.heads[line] + all) % self.rings.size;
        self.rings.used[line] -= all;
        outcome
    }

    /// The counter moves as in sending.
    fn charge(&mut self, line: usize, length: usize) {
        let counter = i64::from(self.turns.counters[line]) - length as i64;
        if counter > 0 {
            self.turns.counters[line] = counter as u32;
        } else {
            self.turns.counters[line] = (counter + i64::from(self.plan.quanta[line])) as u32;
            self.turns.rounds[line] = self.turns.rounds[line].wrapping_add(1);
            self.raised();
        }
    }

    fn apply(&mut self, line: usize, round: u32, counter: u32) -> Outcome {
        let ahead = round.wrapping_sub(self.turns.rounds[line]);
        if ahead >= 1 << 31 || ahead == 0 && counter > self.turns.counters[line] {
            return Outcome::Behind { line };
        }
        let missing = u64::from(ahead) * u64::from(self.plan.quanta[line]) + u64::from(self.turns.counters[line]) - u64::from(counter);
        (self.turns.rounds[line], self.turns.counters[line]) = (round, counter);
        if ahead > 0 {
            self.raised();
        }
        Outcome::Marker { line, missing }
    }

    /// A line's round has risen: where no line is left at the current round, it becomes the nearest that some line has.
    fn raised(&mut self) {
        if self.lines().all(|line| self.turns.rounds[line] != self.turns.round) {
            let nearest = self.lines().map(|line| self.turns.rounds[line].wrapping_sub(self.turns.round)).min().expect("a plan has a line");
            self.turns.round = self.turns.round.wrapping_add(nearest);
        }
    }

    /// Takes until one takes nothing or the log is full; each packet goes behind the ones before it. State and store are judged before the log is
    /// looked at.
    pub fn takes(&mut self, store: &[u8], out: &mut [u8], log: &mut [u64]) -> StageRun {
        if let Some(number) = self.refusal(store) {
            return StageRun { why: Outcome::Refused(number).word(), taken: 0, bytes: 0 };
        }
        let mut bytes = 0;
        for taken in 0..log.len() {
            let outcome = self.take(store, &mut out[bytes..]);
            if !outcome.is_taken() {
                return StageRun { why: outcome.word(), taken, bytes };
            }
            if let Outcome::Data { length, .. } = outcome {
                bytes += length;
            }
            log[taken] = outcome.word();
        }
        StageRun { why: FULL, taken: log.len(), bytes }
    }
}
