//! A line drawn as a pipe along its rounds. A round is as wide on every line and a pipe as thick as its line's quantum is large, so that of two blocks
//! in a picture the larger has more bytes.

use super::both_ends::Booth;
use super::sheet::{Sheet, WIDTH};

pub const LEFT: f64 = 150.0;
pub const RIGHT: f64 = WIDTH - 24.0;
/// Rounds that there is room for.
const ROUNDS: f64 = 2.3;

pub const CLASSES: [&str; 2] = ["zero", "one"];

pub struct Track {
    line: usize,
    quantum: u64,
    pub top: f64,
    thick: f64,
}

impl Track {
    /// So many of a picture's height for each byte of the quantum.
    pub fn new(booth: &Booth, line: usize, top: f64, high: f64) -> Track {
        let quantum = booth.plan.quanta[line];
        Track { line, quantum: u64::from(quantum), top, thick: f64::from(quantum) * high }
    }

    pub fn x(&self, position: u64) -> f64 {
        round_at(position as f64 / self.quantum as f64)
    }

    pub fn bottom(&self) -> f64 {
        self.top + self.thick
    }

    /// Where text stands that is half way down.
    pub fn base(&self) -> f64 {
        self.top + self.thick / 2.0 + 7.0
    }

    pub fn pipe(&self, sheet: &mut Sheet, words: &str) {
        sheet.block("pipe", LEFT, self.top, RIGHT - LEFT, self.thick);
        sheet.text("number", 28.0, self.base() - 9.0, &format!("line {}", self.line));
        sheet.text("soft", 28.0, self.base() + 13.0, words);
    }

    pub fn block(&self, sheet: &mut Sheet, class: &str, at: u64, length: u64) {
        sheet.block(class, self.x(at), self.top, self.x(at + length) - self.x(at), self.thick);
    }

    /// A packet, cut where it runs into the next round.
    pub fn packet(&self, sheet: &mut Sheet, number: u8, at: u64, length: u64) {
        self.block(sheet, CLASSES[self.line], at, length);
        if let Some(cut) = self.cut(at, length) {
            sheet.line("cut", (self.x(cut), self.top), (self.x(cut), self.bottom()));
        }
        self.label(sheet, "on", number, at, length);
    }

    /// The end of a round inside a packet, which is never longer than a round.
    fn cut(&self, at: u64, length: u64) -> Option<u64> {
        let cut = (at / self.quantum + 1) * self.quantum;
        (cut < at + length).then_some(cut)
    }

    /// Number and length of a packet, in the larger part of it where it is cut.
    pub fn label(&self, sheet: &mut Sheet, class: &str, number: u8, at: u64, length: u64) {
        let (from, to) = match self.cut(at, length) {
            Some(cut) if cut - at < at + length - cut => (cut, at + length),
            Some(cut) => (at, cut),
            None => (at, at + length),
        };
        sheet.label(class, (self.x(from) + self.x(to)) / 2.0, self.base(), &number.to_string(), &length.to_string());
    }

    /// A marker: a pole through the pipe, and a flag above it.
    pub fn marker(&self, sheet: &mut Sheet, at: u64, words: &str) {
        let (x, top) = (self.x(at), self.top - 24.0);
        sheet.path("flag", &format!("M{:.1} {top:.1}h18l-5 7l5 7h-15V{:.1}h-3z", x - 1.5, self.bottom() + 4.0));
        sheet.text("flag", x + 24.0, top + 14.0, words);
    }
}

fn round_at(rounds: f64) -> f64 {
    LEFT + rounds * (RIGHT - LEFT) / ROUNDS
}

/// The rounds' names and where each begins, from one height down to another.
pub fn rounds(sheet: &mut Sheet, top: f64, bottom: f64) {
    for round in 1..=ROUNDS.ceil() as u32 {
        let x = round_at(f64::from(round - 1));
        sheet.text("soft", x + 8.0, top + 14.0, &format!("round {round}"));
        sheet.line("rule dashed", (x, top), (x, bottom));
    }
}
