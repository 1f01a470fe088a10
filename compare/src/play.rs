//! Whole sessions by chance, without loss and with losses: steps in any order, and what must have been handed out at the end.

use crate::cases::{begin, differs};
use crate::chance::Chance;
use crate::counts::Counts;
use crate::records::damaged;
use crate::sending::count_corners;
use crate::session::{Item, Session};

impl Session {
    fn step(&mut self, chance: &mut Chance, counts: &mut Counts) {
        let max = self.max();
        let line = self.any_line(chance);
        match chance.between(0, 15) {
            0..=4 => self.send(chance, counts),
            5 => self.rare_step(line, chance, counts),
            step if step < 6 + self.takes => {
                let room = if chance.one_in(4) { chance.between(0, max) } else { max + chance.between(0, 20) };
                self.take(room as usize, chance, counts);
            }
            _ => {
                self.arrive(line, chance, counts);
            }
        }
    }

    fn rare_step(&mut self, line: usize, chance: &mut Chance, counts: &mut Counts) {
        match chance.between(0, 9) {
            0..=2 => self.mark(line, false, counts),
            3 => self.refused_call(line, chance, counts),
            4 => self.bad_data(line as u32, chance, counts),
            5 => self.bad_marker(line, chance, counts),
            6 => self.again(line, counts),
            _ => self.run(chance.between(0, 4 * self.max()) as usize, chance, counts),
        }
    }

    /// Data that no line brings: of a length that cannot be, or on a line that there is not.
    fn bad_data(&mut self, line: u32, chance: &mut Chance, counts: &mut Counts) {
        let (line, length) = match chance.between(0, 2) {
            0 => (line, 0),
            1 => (line, self.max() + 1),
            _ => (chance.between(self.lines.len() as u64, 20) as u32, chance.between(0, self.max())),
        };
        let number = self.data(line, &chance.bytes(length as usize), counts);
        assert_ne!(number, 0, "data that no line brings");
    }

    /// A marker that is damaged, of another line, or on a line that there is not. One that is as good as any by chance is left out.
    fn bad_marker(&mut self, line: usize, chance: &mut Chance, counts: &mut Counts) {
        let good = self.booth.definition.marker(line);
        let other = self.any_line(chance);
        let (line, record, what) = match chance.between(0, 5) {
            0 => (chance.between(self.lines.len() as u64, 20) as usize, good, "on no line"),
            1 if other != line => (line, self.booth.definition.marker(other), "of another line"),
            _ => {
                let (record, what) = damaged(good, chance);
                (line, record, what)
            }
        };
        if self.far.judged(line as u32, &record) != 0 {
            self.marker(line as u32, &record, 0, counts);
            counts.count("in them, bad markers", what);
        }
    }

    pub fn steps(&mut self, count: u64, chance: &mut Chance, counts: &mut Counts) {
        (0..count).for_each(|_| self.step(chance, counts));
    }

    /// Everything under way arrives and is taken, until neither goes on.
    fn drain(&mut self, chance: &mut Chance, counts: &mut Counts) {
        let max = self.max() as usize;
        let mut goes_on = true;
        while goes_on {
            goes_on = false;
            for line in 0..self.lines.len() {
                goes_on |= self.arrive(line, chance, counts);
            }
            while !chance.one_in(16) && self.take(max, chance, counts) {
                goes_on = true;
            }
            goes_on = goes_on || self.take(max, chance, counts);
        }
    }

    /// The whole session: some steps, then markers behind which nothing is lost, some steps more, markers again, and all that is left.
    fn play(&mut self, chance: &mut Chance, counts: &mut Counts) {
        let lossless = self.lines.iter().all(|line| line.loses.is_none());
        let lines = self.lines.len() as u64;
        self.steps(chance.between(0, 300 + 50 * lines), chance, counts);
        self.lines.iter_mut().for_each(|line| line.loses = None);
        let behind = self.packets.len();
        self.mark_all(true, counts);
        self.steps(chance.between(0, 150 + 25 * lines), chance, counts);
        self.mark_all(false, counts);
        self.drain(chance, counts);
        if lossless && !self.handed.iter().copied().eq(0..self.packets.len()) {
            differs("what a session without loss hands out", format!("{:?}", self.handed));
        }
        self.check_order(behind);
        counts.count(SESSIONS, match self.in_order_from {
            _ if lossless => "without loss",
            Some(_) => "losses, order behind markers",
            None => "losses, a marker stayed",
        });
    }

    /// Once each line has yielded its mending marker, the packets sent behind those and still to come, in order and without a gap; at the end
    /// none is left.
    fn check_order(&self, behind: usize) {
        let (before, after) = self.handed.split_at(self.in_order_from.unwrap_or(self.handed.len()));
        if self.in_order_from.is_some() && !(behind..self.packets.len()).filter(|packet| !before.contains(packet)).eq(after.iter().copied()) {
            differs("order behind the markers", format!("from packet {behind} on: {before:?}, then {after:?}"));
        }
        let left = self.lines.iter().flat_map(|line| line.under_way.iter().chain(&line.held)).any(|item| matches!(item, Item::Packet(_)));
        if left {
            differs("a packet is left", format!("{:?}", self.pair.receiver));
        }
        if !self.far.shown_by(&self.before, &self.pair.store) {
            differs("the store, by all that was ever stored", format!("{:?}", self.pair.receiver));
        }
    }
}

const SESSIONS: &str = "sessions of both ends";

pub fn sessions(seed: u64, counts: &mut Counts) {
    const SIZES: &str = "sessions of both ends, at an end of S";
    let chance = &mut begin("sessions", seed);
    let lossy = chance.one_in(2);
    let mut session = Session::open(chance, lossy);
    let receiver = session.pair.receiver;
    counts.line_count("sessions of both ends, by lines", receiver.plan.lines);
    count_corners("sessions of both ends, at an end of a range", &receiver.plan, counts);
    counts.add(SIZES, "S Max + 3", u64::from(receiver.rings.size == receiver.plan.max + 3));
    counts.add(SIZES, "S 65536", u64::from(receiver.rings.size == 65536));
    session.play(chance, counts);
    counts.add(SESSIONS, "every round passed 2^32", u64::from(session.far.rounds_from(1 << 32)));
    counts.add(SESSIONS, "every ring wrapped three times", u64::from(session.far.least_wraps() >= 3));
    counts.add(SESSIONS, "packets handed out in all", session.handed.len() as u64);
}
