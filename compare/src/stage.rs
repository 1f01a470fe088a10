//! The second program's receiver, its store and its arrivals, from the specification's words alone (taking is in taking.rs). Slow and plain
//! on purpose: a ring's byte is looked up by its place modulo S, one at a time, and an item is read whole before it is judged.

use crate::paper::{numbers, Plan, LENGTH, LINE, MARKER, OTHER_LINE, PLAN, ROOM, STATE, STORE};

/// As the archive has it: the store's bytes for each line, and for each line head and used.
#[repr(C)]
#[derive(Clone, Copy, Debug, Default, PartialEq, Eq)]
pub struct Rings {
    pub size: u32,
    pub heads: [u32; 16],
    pub used: [u32; 16],
}

/// The current round, and for each line round and counter.
#[repr(C)]
#[derive(Clone, Copy, Debug, Default, PartialEq, Eq)]
pub struct Turns {
    pub round: u32,
    pub rounds: [u32; 16],
    pub counters: [u32; 16],
}

#[repr(C)]
#[derive(Clone, Copy, Debug, Default, PartialEq, Eq)]
pub struct Receiver {
    pub plan: Plan,
    pub rings: Rings,
    pub turns: Turns,
}

/// What an item can be.
pub enum Item {
    Data(Vec<u8>),
    Marker { round: u32, counter: u32 },
}

impl Receiver {
    pub fn open(record: &[u8], size: u32) -> (u32, Receiver) {
        let plan = Plan::read(record).filter(|plan| (plan.max + 3..=65536).contains(&size));
        let Some(plan) = plan else {
            return (PLAN, Receiver::default());
        };
        let rings = Rings { size, ..Rings::default() };
        let turns = Turns { round: 1, counters: plan.quanta, ..Turns::default() };
        let mut receiver = Receiver { plan, rings, turns };
        receiver.turns.rounds[..plan.lines as usize].fill(1);
        (0, receiver)
    }

    pub fn lines(&self) -> std::ops::Range<usize> {
        0..self.plan.lines as usize
    }

    pub fn is_valid(&self) -> bool {
        self.plan.in_range()
            && (self.plan.max + 3..=65536).contains(&self.rings.size)
            && self.lines().all(|line| (1..=self.plan.quanta[line]).contains(&self.turns.counters[line]))
            && self.lines().all(|line| self.rings.heads[line] < self.rings.size && self.rings.used[line] <= self.rings.size)
            && self.lines().all(|line| self.turns.rounds[line].wrapping_sub(self.turns.round) < 1 << 31)
            && self.lines().any(|line| self.turns.rounds[line] == self.turns.round)
    }

    /// The number that a call gets for its state and its store's length, before all else.
    pub fn refusal(&self, store: &[u8]) -> Option<u32> {
        if !self.is_valid() {
            Some(STATE)
        } else if store.len() != self.plan.lines as usize * self.rings.size as usize {
            Some(STORE)
        } else {
            None
        }
    }

    /// The lowest-numbered line at the current round, of a valid state.
    pub fn current(&self) -> usize {
        self.lines().find(|line| self.turns.rounds[*line] == self.turns.round).expect("some line is at it")
    }

    /// Where in the store the byte lies that is so many behind a line's head.
    pub fn place(&self, line: usize, behind: usize) -> usize {
        let size = self.rings.size as usize;
        line * size + (self.rings.heads[line] as usize + behind) % size
    }

    /// 4 where the data cannot be an item, else 0.
    fn judged_data(&self, bytes: &[u8]) -> u32 {
        if bytes.is_empty() || bytes.len() > self.plan.max as usize { LENGTH } else { 0 }
    }

    /// Round and counter of a marker that came on a line; else 5 or 6.
    fn judged_marker(&self, line: usize, bytes: &[u8]) -> Result<(u32, u32), u32> {
        let all = numbers(bytes).filter(|all| all.len() == 3).ok_or(MARKER)?;
        if all[2] < 1 || all[2] > u128::from(self.plan.quanta[line]) {
            return Err(MARKER);
        }
        if all[0] != line as u128 {
            return Err(OTHER_LINE);
        }
        Ok((all[1] as u32, all[2] as u32))
    }

    /// Puts an item behind a line's last, where there is room for it.
    fn store_item(&mut self, line: usize, kind: u8, bytes: &[u8], store: &mut [u8]) -> u32 {
        if ((self.rings.size - self.rings.used[line]) as usize) < 3 + bytes.len() {
            return ROOM;
        }
        let length = bytes.len() as u16;
        let front = [kind, length as u8, (length >> 8) as u8];
        for (at, byte) in front.iter().chain(bytes).enumerate() {
            store[self.place(line, self.rings.used[line] as usize + at)] = *byte;
        }
        self.rings.used[line] += 3 + u32::from(length);
        0
    }

    pub fn data(&mut self, line: u32, bytes: &[u8], store: &mut [u8]) -> u32 {
        if let Some(number) = self.refusal(store) {
            return number;
        }
        if line >= self.plan.lines {
            return LINE;
        }
        match self.judged_data(bytes) {
            0 => self.store_item(line as usize, 0, bytes, store),
            number => number,
        }
    }

    pub fn marker(&mut self, line: u32, bytes: &[u8], store: &mut [u8]) -> u32 {
        if let Some(number) = self.refusal(store) {
            return number;
        }
        if line >= self.plan.lines {
            return LINE;
        }
        match self.judged_marker(line as usize, bytes) {
            Ok(_) => self.store_item(line as usize, 1, bytes, store),
            Err(number) => number,
        }
    }

    /// The item at a line's head and its bytes in all, or nothing where it cannot be one.
    pub fn head_item(&self, line: usize, store: &[u8]) -> Option<(Item, u32)> {
        let used = self.rings.used[line] as usize;
        let held = |from: usize, to: usize| (from..to).map(|behind| store[self.place(line, behind)]).collect::<Vec<u8>>();
        if used < 3 {
            return None;
        }
        let front = held(0, 3);
        let length = usize::from(front[1]) + 256 * usize::from(front[2]);
        if 3 + length > used {
            return None;
        }
        let bytes = held(3, 3 + length);
        let item = match front[0] {
            0 if self.judged_data(&bytes) == 0 => Item::Data(bytes),
            1 => self.judged_marker(line, &bytes).map(|(round, counter)| Item::Marker { round, counter }).ok()?,
            _ => return None,
        };
        Some((item, 3 + length as u32))
    }
}
