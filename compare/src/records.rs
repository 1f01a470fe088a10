//! Records by chance, whole and damaged, and the calls that judge and write them.

use crate::answers;
use crate::cases::{begin, differs};
use crate::chance::Chance;
use crate::counts::{number_name, Counts};
use crate::pair::longer;
use crate::paper::{self, Sender};
use crate::proved;

/// A plan record that is in range, or nearly.
pub fn plan_record(chance: &mut Chance) -> Vec<u8> {
    let lines = chance.near(1, 16);
    let max = chance.near(64, 9000);
    let interval = chance.near(1, 65535);
    let mut all = vec![lines, max, interval];
    for _ in 0..lines.min(20) {
        all.push(if chance.one_in(4) { chance.near(max, 1_048_576.max(max)) } else { chance.between(max, 1_048_576.max(max)) });
    }
    paper::record(&all)
}

/// The same with a byte changed, put in, taken out or cut off, or a number in a longer form, and which of these it was.
pub fn damaged(mut record: Vec<u8>, chance: &mut Chance) -> (Vec<u8>, &'static str) {
    if record.is_empty() {
        return (record, "whole");
    }
    let at = chance.between(0, record.len() as u64 - 1) as usize;
    let what = match chance.between(0, 4) {
        0 => {
            record.truncate(at);
            "cut"
        }
        1 => {
            record.insert(at + 1, chance.next() as u8);
            "byte put in"
        }
        2 => {
            record[at] ^= chance.between(1, 255) as u8;
            "byte changed"
        }
        3 => {
            let end = at + record[at..].iter().position(|byte| byte & 0x80 == 0).unwrap_or(record.len() - 1 - at);
            record[end] |= 0x80;
            record.insert(end + 1, 0);
            "overlong number"
        }
        _ => {
            record.remove(at);
            "byte taken out"
        }
    };
    (record, what)
}

pub fn noise(chance: &mut Chance) -> Vec<u8> {
    (0..chance.between(0, 40)).map(|_| if chance.one_in(2) { chance.next() as u8 } else { chance.between(0, 20) as u8 }).collect()
}

/// The check of a record, and the sender that opens on it, from a state that no opening leaves.
fn compare_plan(record: &[u8], counts: &mut Counts) {
    let (proved, second) = (proved::check_plan(record), paper::check_plan(record));
    if proved != second {
        differs("plan check", format!("{record:02x?}: {proved} and {second}"));
    }
    counts.count("plan records, answers", if proved == 0 { "good" } else { number_name(proved) });
    compare_opening(record);
}

pub fn compare_opening(record: &[u8]) -> Sender {
    const WORD: u32 = 0xEEEE_EEEE;
    let plan = paper::Plan { lines: WORD, max: WORD, interval: WORD, quanta: [WORD; 16] };
    let mut sender = Sender { plan, line: WORD, countdown: WORD, rounds: [WORD; 16], counters: [WORD; 16] };
    let (proved, (number, second)) = (proved::open(&mut sender, record), Sender::open(record));
    if (proved, sender) != (answers::done(number), second) {
        differs("opening a sender", format!("{record:02x?}: {proved} {sender:?} and {number} {second:?}"));
    }
    sender
}

pub fn plans(seed: u64, counts: &mut Counts) {
    let chance = &mut begin("plans", seed);
    let record = plan_record(chance);
    compare_plan(&record, counts);
    counts.count("plan records", "whole");
    let (record, what) = damaged(record, chance);
    compare_plan(&record, counts);
    counts.count("plan records", what);
    compare_plan(&noise(chance), counts);
    counts.count("plan records", "noise");
}

/// A marker written by itself; what lies behind the output is not lent, and must stay.
fn compare_marker(line: u32, round: u32, counter: u32, before: &[u8]) -> u32 {
    let mut out = longer(before, 0xEE);
    let proved = proved::write_marker(line, round, counter, &mut out[..before.len()]);
    let (second, after) = paper::write_marker(line, round, counter, before);
    if proved != second || out != longer(&after, 0xEE) {
        differs("marker", format!("{line} {round} {counter} into {before:02x?}: {proved} {out:02x?} and {second} {after:02x?}"));
    }
    proved
}

pub fn markers(seed: u64, counts: &mut Counts) {
    const LENGTHS: [&str; 10] = ["", "", "", "3 bytes", "4 bytes", "5 bytes", "6 bytes", "7 bytes", "8 bytes", "9 bytes"];
    let chance = &mut begin("markers", seed);
    let most = 1 << chance.between(1, 20).max(chance.between(1, 20));
    let (line, counter) = (chance.near(0, 15) as u32, chance.near(1, most) as u32);
    let round = (chance.next() >> chance.between(32, 63)) as u32;
    let length = chance.between(0, 14) as usize;
    let answer = compare_marker(line, round, counter, &chance.bytes(length));
    counts.count("markers written", answers::said(answer).map_or_else(number_name, |length| LENGTHS[length as usize]));
}
