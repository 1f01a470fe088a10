//! How often each thing came up, by group. What a run must have seen is laid out from the start, and a run that has not seen it fails.

use crate::answers::FULL;
use crate::taking::Outcome;

const LINES: [&str; 16] = ["1", "2", "3", "4", "5", "6", "7", "8", "9", "10", "11", "12", "13", "14", "15", "16"];
const PLAN_ENDS: [&str; 10] =
    ["N 1", "N 16", "Max 64", "Max 9000", "K 1", "K 65535", "q Max", "q 1048576", "all of these low", "all of these high"];
const FIELDS: [&str; 4] = ["lines", "max", "interval", "quanta"];
const RECORDS: [&str; 7] = ["whole", "cut", "byte put in", "byte changed", "overlong number", "byte taken out", "noise"];
const TAKES: [&str; 8] = ["data", "marker", "marker, bytes missing", "11", "waiting", "2", "8", "9"];

/// Group by group, in the order in which they are printed.
const WANTED: &[(&str, &[&str])] = &[
    ("numbers read", &["1 byte", "2 bytes", "3 bytes", "4 bytes", "5 bytes", "5"]),
    ("numbers written", &["1 byte", "2 bytes", "3 bytes", "4 bytes", "5 bytes", "8"]),
    ("markers read by themselves", &RECORDS),
    ("markers read by themselves, answers", &["good", "3", "5"]),
    ("plans copied", &["copied", "1", "8"]),
    ("plans written", &["written", "1", "8"]),
    ("plans written, by lines", &LINES),
    ("plans written, at an end of a range", &PLAN_ENDS),
    ("plans with one field changed, written", &FIELDS),
    ("plans with one field changed, refused with 1", &FIELDS),
    ("plans of any words", &["written", "1"]),
    ("plans read", &["read back", "whole", "cut", "byte put in", "byte changed", "overlong number", "byte taken out", "noise"]),
    ("plans read, answers", &["good", "1"]),
    ("plan records", &RECORDS),
    ("plan records, answers", &["good", "1"]),
    ("markers written", &["3 bytes", "4 bytes", "5 bytes", "6 bytes", "7 bytes", "8 bytes", "9 bytes", "3", "5", "8"]),
    ("sender sessions, by lines", &LINES),
    ("sender sessions, at an end of a range", &PLAN_ENDS),
    ("sender sessions, calls", &["sent", "sent, due", "sent, due at K 65535", "send 4", "marker", "marker 3", "marker 8"]),
    ("sender sessions", &["every round passed 2^32"]),
    ("senders with one field changed, sends refused with 2", &["lines", "max", "interval", "quanta", "line", "countdown", "counters"]),
    ("senders with one field changed, sent", &["lines", "max", "interval", "quanta", "line", "countdown", "rounds", "counters"]),
    ("receivers opened", &["opened", "1"]),
    ("sessions of both ends, by lines", &LINES),
    ("sessions of both ends, at an end of a range", &PLAN_ENDS),
    ("sessions of both ends, at an end of S", &["S Max + 3", "S 65536"]),
    ("sessions of both ends", &["without loss", "losses, order behind markers", "every round passed 2^32", "every ring wrapped three times"]),
    ("in them, at the booth", &["sent", "sent, due", "send 4", "marker", "marker 3", "marker 8"]),
    ("in them, on the lines", &["packet lost", "marker lost", "marker again"]),
    ("in them, data", &["stored", "3", "4", "7"]),
    ("in them, markers", &["stored", "3", "5", "6", "7"]),
    ("in them, bad markers", &["cut", "byte put in", "byte changed", "overlong number", "byte taken out", "of another line"]),
    ("in them, takes", &["data", "marker", "marker, bytes missing", "11", "waiting", "8"]),
    ("in them, takes of runs", &["data", "marker", "marker, bytes missing", "11"]),
    ("in them, runs ended", &["full", "waiting", "8"]),
    ("receivers damaged by", &["one field changed", "store of another length", "noise in a ring", "forged item", "several of these"]),
    (
        "receivers with one field changed, refused with 2",
        &["lines", "max", "interval", "quanta", "size", "round", "rounds", "counters", "heads", "used"],
    ),
    ("stores of another length, refused with 9", &["empty", "one byte short", "one byte over", "any"]),
    ("noise in a ring, takes", &["data", "waiting", "8", "9"]),
    ("damaged receivers, data", &["stored", "2", "3", "4", "7", "9"]),
    ("damaged receivers, markers", &["stored", "2", "3", "5", "6", "7", "9"]),
    ("damaged receivers, takes", &TAKES),
    ("damaged receivers, takes of runs", &["data", "marker", "marker, bytes missing", "11"]),
    ("damaged receivers, runs ended", &["full", "waiting", "2", "8", "9"]),
    ("marker records that came", &RECORDS),
    ("texts for stripes", &["whole", "damaged", "refused somewhere"]),
    ("recorded steps", &["lines compared"]),
];

struct Group {
    name: &'static str,
    wanted: usize,
    counts: Vec<(&'static str, u64)>,
}

pub struct Counts(Vec<Group>);

/// The number as a table's name has it.
pub fn number_name(number: u32) -> &'static str {
    const NAMES: [&str; 12] = ["0", "1", "2", "3", "4", "5", "6", "7", "8", "9", "10", "11"];
    NAMES.get(number as usize).unwrap_or(&"no number")
}

impl Counts {
    pub fn new() -> Counts {
        let group = |(name, wanted): &(&'static str, &'static [&'static str])| Group {
            name,
            wanted: wanted.len(),
            counts: wanted.iter().map(|name| (*name, 0)).collect(),
        };
        Counts(WANTED.iter().map(group).collect())
    }

    pub fn add(&mut self, group: &'static str, name: &'static str, times: u64) {
        let group = self.0.iter_mut().find(|each| each.name == group).unwrap_or_else(|| panic!("no group {group}"));
        match group.counts.iter_mut().find(|each| each.0 == name) {
            Some((_, so_far)) => *so_far += times,
            None => group.counts.push((name, times)),
        }
    }

    pub fn count(&mut self, group: &'static str, name: &'static str) {
        self.add(group, name, 1);
    }

    pub fn line_count(&mut self, group: &'static str, lines: u32) {
        self.count(group, LINES[lines as usize - 1]);
    }

    /// An arrival's answer.
    pub fn arrival(&mut self, group: &'static str, number: u32) {
        self.count(group, if number == 0 { "stored" } else { number_name(number) });
    }

    /// A take's word.
    pub fn word(&mut self, group: &'static str, word: u64) {
        self.count(group, take_name(word));
    }

    /// Why a run of takes ended.
    pub fn run(&mut self, group: &'static str, why: u64) {
        self.count(group, if why == FULL { "full" } else { take_name(why) });
    }

    /// One line a group.
    pub fn print(&self) {
        for group in self.0.iter().filter(|group| group.counts.iter().any(|count| count.1 > 0)) {
            let all: Vec<String> = group.counts.iter().map(|(name, times)| format!("{name}: {times}")).collect();
            println!("compare: {}: {}", group.name, all.join(", "));
        }
    }

    /// What a run had to see and has not.
    pub fn unseen(&self) -> Vec<String> {
        let wanted = self.0.iter().flat_map(|group| group.counts[..group.wanted].iter().map(move |count| (group.name, count)));
        wanted.filter(|(_, count)| count.1 == 0).map(|(group, count)| format!("{group}: {}", count.0)).collect()
    }
}

pub fn take_name(word: u64) -> &'static str {
    match Outcome::of(word) {
        Outcome::Data { .. } => "data",
        Outcome::Marker { missing: 0, .. } => "marker",
        Outcome::Marker { .. } => "marker, bytes missing",
        Outcome::Behind { .. } => "11",
        Outcome::Waiting { .. } => "waiting",
        Outcome::Refused(number) => number_name(number),
    }
}
