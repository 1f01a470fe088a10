//! Holds the proved sender against both forms of the second program's: sessions from opening, and states that no session leaves.

use crate::answers::{said, went};
use crate::cases::{begin, differs};
use crate::chance::Chance;
use crate::counts::{number_name, Counts};
use crate::pair::longer;
use crate::paper::{record, Definition, Plan, Sender};
use crate::proved;
use crate::records::compare_opening;

/// The plan at the low end of every range.
pub const LOWEST: [u64; 4] = [1, 64, 1, 64];

/// The plan at the high end of every range.
pub fn highest() -> Vec<u64> {
    [16, 9000, 65535].into_iter().chain([1_048_576; 16]).collect()
}

/// A plan in range, of lines, sizes and quanta by chance, each now and then at an end of its range.
pub fn good_plan(chance: &mut Chance) -> Vec<u8> {
    match chance.between(0, 199) {
        0 => return record(&LOWEST),
        1 => return record(&highest()),
        _ => {}
    }
    let lines = chance.cornered(1, 16, 16);
    let most = if chance.one_in(2) { 9000 } else { 200 };
    let max = chance.cornered(64, most, 9000);
    let usual = if chance.one_in(2) { 5 } else { 65535 };
    let mut all = vec![lines, max, chance.cornered(1, usual, 65535)];
    let widest = if chance.one_in(2) { 2 * max } else { 1_048_576 };
    all.extend((0..lines).map(|_| chance.cornered(max, widest, 1_048_576)));
    record(&all)
}

/// The ends of ranges that a plan lies at.
pub fn count_corners(group: &'static str, plan: &Plan, counts: &mut Counts) {
    let quanta = &plan.quanta[..plan.lines as usize];
    for (at_it, name) in [
        (plan.lines == 1, "N 1"),
        (plan.lines == 16, "N 16"),
        (plan.max == 64, "Max 64"),
        (plan.max == 9000, "Max 9000"),
        (plan.interval == 1, "K 1"),
        (plan.interval == 65535, "K 65535"),
        (quanta.contains(&plan.max), "q Max"),
        (quanta.contains(&1_048_576), "q 1048576"),
        (plan.lines == 1 && plan.interval == 1 && quanta == [64], "all of these low"),
        (plan.lines == 16 && plan.max == 9000 && plan.interval == 65535 && quanta == [1_048_576; 16], "all of these high"),
    ] {
        counts.add(group, name, u64::from(at_it));
    }
}

/// One send of a state that may be anything: the answer and the next state.
pub fn compare_send(sender: &mut Sender, length: usize) -> u32 {
    let (before, mut second) = (*sender, *sender);
    let (proved, other) = (proved::send(sender, length), second.send(length));
    if proved != other || *sender != second {
        differs("send", format!("{before:?} {length}: {proved} {sender:?} and {other} {second:?}"));
    }
    proved
}

/// A marker asked for: the answer, and the output as it is left.
pub fn compare_marker_from(sender: &Sender, line: u32, before: &[u8]) -> (u32, Vec<u8>) {
    let mut out = longer(before, 0xEE);
    let proved = proved::marker(sender, line, &mut out[..before.len()]);
    let (second, after) = sender.marker(line, before);
    if proved != second || out != longer(&after, 0xEE) {
        differs("marker from a sender", format!("{sender:?} {line}: {proved} {out:02x?} and {second} {after:02x?}"));
    }
    (proved, after)
}

/// A sender from opening, or as it is when each line has carried its quantum so often that the round is this, beside what its lines have carried.
pub struct Booth {
    pub sender: Sender,
    pub definition: Definition,
}

impl Booth {
    pub fn open(record: &[u8], round: u32) -> Booth {
        let mut sender = compare_opening(record);
        sender.rounds[..sender.plan.lines as usize].fill(round);
        Booth { definition: Definition::open_at(sender.plan, round), sender }
    }

    /// A send by all forms: the packet's line and whether markers are due, or the number.
    pub fn send(&mut self, length: usize, group: &'static str, counts: &mut Counts) -> Result<(u32, bool), u32> {
        let answer = compare_send(&mut self.sender, length);
        let expected = self.definition.send(length);
        if answer != expected || !self.definition.shows(&self.sender) {
            differs("send by the definition", format!("{:?} {length}: {answer} and {expected}", self.sender));
        }
        let went = went(answer);
        counts.count(group, match went {
            Ok((_, false)) => "sent",
            Ok((_, true)) => "sent, due",
            Err(4) => "send 4",
            Err(number) => number_name(number),
        });
        went
    }

    /// A marker asked for, by all forms; the record where there is one.
    pub fn marker(&self, line: u32, before: &[u8], group: &'static str, counts: &mut Counts) -> Option<Vec<u8>> {
        let (answer, out) = compare_marker_from(&self.sender, line, before);
        let length = said(answer);
        let written = length.ok().map(|length| out[..length as usize].to_vec());
        if written.as_ref().is_some_and(|record| *record != self.definition.marker(line as usize)) {
            differs("marker by the definition", format!("{:?} {line}: {out:02x?}", self.sender));
        }
        counts.count(group, match length {
            Ok(_) => "marker",
            Err(3) => "marker 3",
            Err(8) => "marker 8",
            Err(number) => number_name(number),
        });
        written
    }
}

const SESSIONS: &str = "sender sessions, calls";

fn open(record: &[u8], round: u32, counts: &mut Counts) -> Booth {
    let booth = Booth::open(record, round);
    counts.line_count("sender sessions, by lines", booth.sender.plan.lines);
    count_corners("sender sessions, at an end of a range", &booth.sender.plan, counts);
    booth
}

/// A session from opening, against both forms: mostly packets in range, some lengths that are refused, a marker now and then.
pub fn sessions(seed: u64, counts: &mut Counts) {
    let chance = &mut begin("senders", seed);
    let round = if chance.one_in(4) { u32::MAX - chance.between(0, 3) as u32 } else { 1 };
    let mut booth = open(&good_plan(chance), round, counts);
    let max = u64::from(booth.sender.plan.max);
    for _ in 0..chance.between(1, 900) {
        let length = if chance.one_in(16) { chance.near(1, max) } else { chance.between(1, max) };
        _ = booth.send(length as usize, SESSIONS, counts);
        if chance.one_in(8) {
            let room = chance.between(0, 12) as usize;
            booth.marker(chance.between(0, 17) as u32, &chance.bytes(room), SESSIONS, counts);
        }
    }
    counts.add("sender sessions", "every round passed 2^32", u64::from(booth.definition.rounds_from(1 << 32)));
}

/// A session long enough for the longest interval to run out: every packet ends a round of its line.
pub fn intervals(seed: u64, counts: &mut Counts) {
    let chance = &mut begin("intervals", seed);
    let lines = chance.between(1, 2);
    let mut all = vec![lines, 64, 65535];
    all.resize(3 + lines as usize, 64);
    let mut booth = open(&record(&all), 1, counts);
    for _ in 0..lines * 65535 + chance.between(1, 9) {
        let went = booth.send(64, SESSIONS, counts);
        counts.add(SESSIONS, "sent, due at K 65535", u64::from(went.is_ok_and(|(_, due)| due)));
    }
}

/// One field of a sender changed, and which.
fn change_field(sender: &mut Sender, chance: &mut Chance) -> &'static str {
    let at = chance.between(0, u64::from(sender.plan.lines.clamp(1, 16)) - 1) as usize;
    let (field, name) = match chance.between(0, 7) {
        0 => (&mut sender.plan.lines, "lines"),
        1 => (&mut sender.plan.max, "max"),
        2 => (&mut sender.plan.interval, "interval"),
        3 => (&mut sender.plan.quanta[at], "quanta"),
        4 => (&mut sender.line, "line"),
        5 => (&mut sender.countdown, "countdown"),
        6 => (&mut sender.rounds[at], "rounds"),
        _ => (&mut sender.counters[at], "counters"),
    };
    *field = match chance.between(0, 4) {
        0 => field.wrapping_add(1),
        1 => field.wrapping_sub(1),
        2 => chance.near(0, 16) as u32,
        3 => chance.near(1, u64::from(*field).max(1)) as u32,
        _ => chance.next() as u32,
    };
    name
}

/// A sender after a few packets with one field changed, or two or three, and a call of each kind.
pub fn states(seed: u64, counts: &mut Counts) {
    let chance = &mut begin("states", seed);
    let (_, mut sender) = Sender::open(&good_plan(chance));
    for _ in 0..chance.between(0, 6) {
        sender.send(chance.between(1, u64::from(sender.plan.max)) as usize);
    }
    if chance.one_in(3) {
        sender.rounds = [u32::MAX; 16];
    }
    let field = change_field(&mut sender, chance);
    let more = if chance.one_in(3) { chance.between(1, 2) } else { 0 };
    for _ in 0..more {
        change_field(&mut sender, chance);
    }
    compare_marker_from(&sender, chance.between(0, 16) as u32, &[0xEE; 9]);
    let length = chance.near(1, u64::from(sender.plan.max.clamp(1, 9000))) as usize;
    match went(compare_send(&mut sender, length)) {
        Err(2) if more == 0 => counts.count("senders with one field changed, sends refused with 2", field),
        Ok(_) if more == 0 => counts.count("senders with one field changed, sent", field),
        _ => {}
    }
}
