//! The session on paper, with what may become of it on the way, and steps that provoke every number of the table that can be provoked. Each says
//! what it must answer, so that a recording that does not bring it about is never written.

use crate::making::Making;
use crate::paper::record;
use crate::player::{
    ASK, COUNTDOWN, COUNTERS, CURRENT, DATA, HEADS, INTERVAL, LEND, LINES, MARKER, MAX, OPEN, OUTPUT, QUANTA, REOPEN, ROUND, ROUNDS, RUN, SEND, SET_BYTE,
    SET_RECEIVER, SET_SENDER, SIZE, TAKE, USED, WRITE,
};

/// 2 lines, Max 500, K 1, quanta 1000 and 500.
const PLAN: [u64; 5] = [2, 500, 1, 1000, 500];
const LENGTHS: [u32; 8] = [400, 500, 300, 450, 200, 500, 500, 100];
/// A line's store: for a whole session, and for the refusals, where a longer store than both rings is to be lent.
const LARGE: u32 = 2500;
const SMALL: u32 = 2000;

const EMPTY: &[u8] = &[];
/// Line 0's marker at packet 5 on paper.
const GOOD: &[u8] = &[0, 2, 0xA0, 6];

/// All eight packets are sent, and all but a lost one arrive. Markers arrive only where they are wanted.
fn carry(making: &mut Making, lost: u32, marked: bool) {
    making.open(&record(&PLAN), LARGE);
    for length in LENGTHS {
        making.send(length);
    }
    for line in 0..2 {
        while making.arrive(line, |number| number == lost || number == 0 && !marked) {}
    }
}

/// Takes that must answer this; a packet is told by its line, its length and its number, which is its first byte.
fn takes(making: &mut Making, answers: &[&str]) {
    for answer in answers {
        let packet = answer.rsplit_once(' ').filter(|(said, _)| said.starts_with("packet"));
        making.expect(packet.map_or(answer, |(said, _)| said), TAKE, [500, 0, 0], EMPTY);
        assert!(packet.is_none_or(|(_, number)| making.world.out[0].to_string() == number), "{answer}, not {}", making.world.out[0]);
    }
}

/// The session on paper: all arriving, packet 2 lost, and packet 2 lost with no markers.
pub fn paper(making: &mut Making) {
    const FROM_4: [&str; 2] = ["packet 1 450 4", "packet 1 200 5"];
    const TO_THE_END: [&str; 5] = ["packet 0 500 6", "packet 0 500 7", "missing 1 0", "packet 1 100 8", "waiting 1"];
    carry(making, u32::MAX, true);
    assert_eq!(making.stored, [(0, GOOD.to_vec()), (1, vec![1, 2, 0xDE, 2])], "the markers after packet 5");
    takes(making, &["packet 0 400 1", "packet 0 500 2", "packet 0 300 3"]);
    takes(making, &FROM_4);
    takes(making, &["missing 0 0"]);
    takes(making, &TO_THE_END);
    carry(making, 2, true);
    takes(making, &["packet 0 400 1", "packet 0 300 3", "missing 0 500"]);
    takes(making, &FROM_4);
    takes(making, &TO_THE_END);
    carry(making, 2, false);
    takes(making, &["packet 0 400 1", "packet 0 300 3", "packet 0 500 6"]);
    takes(making, &FROM_4);
    takes(making, &["packet 0 500 7", "waiting 0"]);
    let (receiver, store) = (&making.world.receiver, &making.world.store);
    assert_eq!((receiver.rings.used[0], receiver.rings.used[1], store[receiver.place(1, 3)]), (0, 103, 8), "packet 8 is held");
}

/// More of it: nothing lost and no markers, a marker that comes again behind its line, the smallest store, and runs of takes.
fn more_paper(making: &mut Making) {
    carry(making, u32::MAX, false);
    takes(making, &["packet 0 400 1", "packet 0 500 2", "packet 0 300 3", "packet 1 450 4", "packet 1 200 5"]);
    takes(making, &["packet 0 500 6", "packet 0 500 7", "packet 1 100 8", "waiting 1"]);
    making.expect("arrived 0", MARKER, [1, 0, 0], &[1, 2, 0xDE, 2]);
    takes(making, &["behind 1", "waiting 1"]);
    making.open(&record(&PLAN), 503);
    for (at, length) in LENGTHS.into_iter().enumerate() {
        making.send(length);
        let line = [0, 0, 0, 1, 1, 0, 0, 1][at];
        while making.arrive(line, |number| number == 0) {}
        takes(making, &[&format!("packet {line} {length} {}", at + 1)]);
    }
}

fn run(making: &mut Making, answer: &str, room: u32, words: u32) {
    let said = making.step(RUN, [room, words, 0], EMPTY);
    assert!(said.starts_with(answer), "{said}, not {answer}");
}

fn runs(making: &mut Making) {
    carry(making, u32::MAX, true);
    run(making, "takes 0 0 full", 2048, 0);
    run(making, "takes 3 1200 full", 2048, 3);
    run(making, "takes 2 650 full", 650, 2);
    run(making, "takes 1 0 refused 8", 499, 64);
    run(making, "takes 4 1100 waiting 1", OUTPUT as u32, 64);
    run(making, "takes 0 0 waiting 1", 0, 1);
}

/// Plan records that are none, and stores for a line that are none.
fn openings(making: &mut Making) {
    let mut records: Vec<Vec<u8>> = [[0, 500, 1, 1000, 500], [2, 63, 1, 1000, 500], [2, 9001, 1, 10_000, 10_000], [2, 500, 0, 1000, 500]]
        .into_iter()
        .chain([[2, 500, 65_536, 1000, 500], [2, 500, 1, 1000, 499], [2, 500, 1, 1_048_577, 500]])
        .map(|numbers| record(&numbers))
        .collect();
    let good = record(&PLAN);
    records.extend([Vec::new(), record(&[0, 500, 1]), record(&[17, 64, 1].into_iter().chain([64; 17]).collect::<Vec<u64>>())]);
    records.extend([good[..7].to_vec(), [&good[..], &[0]].concat(), [&[0x82, 0][..], &good[1..]].concat()]);
    for bad in records {
        making.open(&good, LARGE);
        making.expect("plan 1 0 opened 1 1", OPEN, [10_000, 0, 0], &bad);
    }
    for (size, number) in [(502, 1), (503, 0), (65_536, 0), (65_537, 1)] {
        making.expect(&format!("plan 0 0 opened 0 {number}"), OPEN, [size, 0, 0], &good);
    }
}

/// Plans that are none: no end opens on them, and they are not written. Entries from line N on are set to zero by an opening.
fn plans(making: &mut Making) {
    let alone = [(LINES, 0, 0), (LINES, 0, 17), (MAX, 0, 63), (MAX, 0, 9001), (INTERVAL, 0, 0), (INTERVAL, 0, 65_536)];
    for (row, line, value) in alone.into_iter().chain([(QUANTA, 1, 499), (QUANTA, 0, 1_048_577)]) {
        making.open(&record(&PLAN), LARGE);
        if value == 9001 {
            (0..2).for_each(|line| making.set(SET_SENDER, QUANTA, line, 10_000));
        }
        making.set(SET_SENDER, row, line, value);
        making.expect("refused 1", WRITE, [0, 500, 0], EMPTY);
        making.expect("opened 1 1", REOPEN, [10_000, 0, 0], EMPTY);
    }
    making.expect("refused 1", WRITE, [0; 3], EMPTY);
    making.open(&record(&PLAN), LARGE);
    making.expect("refused 8", WRITE, [0, 7, 0], EMPTY);
    making.expect("written 8", WRITE, [0, 8, 0], EMPTY);
    making.set(SET_SENDER, QUANTA, 2, 77);
    making.set(SET_SENDER, LINES, 0, 1);
    making.expect("opened 0 0", REOPEN, [503, 0, 0], EMPTY);
    making.expect("opened 0 1", REOPEN, [502, 0, 0], EMPTY);
}

fn sender_refused_with_2(making: &mut Making) {
    making.expect("refused 2", SEND, [1, 0, 0], EMPTY);
    making.expect("refused 2", SEND, [0; 3], EMPTY);
    making.expect("refused 2", ASK, [0, 500, 0], EMPTY);
    making.expect("refused 2", ASK, [2, 0, 0], EMPTY);
}

/// The sender: closed, one figure out of range, then calls out of range, and what is just within. Entries from line N on are ignored and kept.
fn senders(making: &mut Making) {
    making.expect("plan 1 0 opened 1 1", OPEN, [SMALL, 0, 0], EMPTY);
    sender_refused_with_2(making);
    making.open(&record(&PLAN), SMALL);
    let alone = [(LINES, 17), (MAX, 63), (INTERVAL, 0), (CURRENT, 2), (COUNTDOWN, 0), (COUNTDOWN, 2)];
    let of_line_1 = [(QUANTA, 499), (COUNTERS, 0), (COUNTERS, 501)];
    for (row, value) in alone.into_iter().chain(of_line_1) {
        making.with(SET_SENDER, row, 1, value, sender_refused_with_2);
    }
    [QUANTA, ROUNDS, COUNTERS].into_iter().for_each(|row| making.set(SET_SENDER, row, 2, 77));
    // no such figure
    [(COUNTERS, 16), (LINES, 16), (10, 0)].into_iter().for_each(|(row, line)| making.set(SET_SENDER, row, line, 77));
    making.expect("refused 4", SEND, [0; 3], EMPTY);
    making.expect("refused 4", SEND, [501, 0, 0], EMPTY);
    making.expect("sent 0", SEND, [500, 0, 0], EMPTY);
    making.expect("refused 3", ASK, [2, 500, 0], EMPTY);
    making.expect("refused 3", ASK, [2, 0, 0], EMPTY);
    making.expect("refused 8", ASK, [0, 3, 0], EMPTY);
    making.expect("written 4", ASK, [0, 4, 0], EMPTY);
    making.with(SET_SENDER, ROUNDS, 0, u32::MAX, |making| making.expect("written 8", ASK, [0, 8, 0], EMPTY));
    making.expect("written 4", ASK, [1, 500, 0], EMPTY);
}

/// Every call of the receiver that is lent its store.
fn receiver_refused_with(number: u32, making: &mut Making) {
    let (arrived, answer) = (format!("arrived {number}"), format!("refused {number}"));
    making.expect(&arrived, DATA, [0, 5, 1], EMPTY);
    making.expect(&arrived, DATA, [2, 5, 0], EMPTY);
    making.expect(&arrived, MARKER, [0, 0, 0], GOOD);
    making.expect(&arrived, MARKER, [2, 0, 0], &[1, 2, 0]);
    making.expect(&answer, TAKE, [500, 0, 0], EMPTY);
    making.expect(&answer, TAKE, [0; 3], EMPTY);
    run(making, &format!("takes 0 0 {answer}"), 500, 4);
    // before the log is looked at
    run(making, &format!("takes 0 0 {answer}"), 500, 0);
}

/// The receiver: closed, one figure out of range, a store of another length.
fn receivers(making: &mut Making) {
    making.expect("plan 1 0 opened 1 1", OPEN, [SMALL, 0, 0], EMPTY);
    receiver_refused_with(2, making);
    making.open(&record(&PLAN), SMALL);
    let alone = [(LINES, 17), (MAX, 63), (INTERVAL, 0), (SIZE, 502), (SIZE, 65_537), (ROUND, 0)];
    let of_line_1 = [(QUANTA, 499), (ROUNDS, 0x8000_0001), (COUNTERS, 0), (COUNTERS, 501), (HEADS, SMALL), (USED, SMALL + 1)];
    for (row, value) in alone.into_iter().chain(of_line_1) {
        making.with(SET_RECEIVER, row, 1, value, |making| receiver_refused_with(2, making));
    }
    for length in [0, 2 * SMALL - 1, 2 * SMALL + 1] {
        making.with(LEND, 0, 0, length, |making| {
            receiver_refused_with(9, making);
            // the state comes before the store's length
            making.with(SET_RECEIVER, COUNTERS, 0, 0, |making| receiver_refused_with(2, making));
        });
    }
    [QUANTA, ROUNDS, COUNTERS, HEADS, USED].into_iter().for_each(|row| making.set(SET_RECEIVER, row, 2, SMALL + 7));
    [(USED, 16), (SIZE, 16), (10, 0)].into_iter().for_each(|(row, line)| making.set(SET_RECEIVER, row, line, 77));
}

/// Arrivals out of range, what is just within, and the order of the checks.
fn arrivals(making: &mut Making) {
    let data = [("arrived 3", [2, 5, 1]), ("arrived 3", [2, 5, 0]), ("arrived 4", [0, 5, 0]), ("arrived 4", [1, 5, 501])];
    for (answer, numbers) in data {
        making.expect(answer, DATA, numbers, EMPTY);
    }
    let over_2_32 = [0, 0xFF, 0xFF, 0xFF, 0xFF, 0x10, 1];
    let not_shortest = [0, 0x82, 0, 0xA0, 6];
    let bad: [&[u8]; 8] = [EMPTY, &GOOD[..3], &[0, 2, 0xA0, 6, 0], &not_shortest, &over_2_32, &[0, 2, 0], &[0, 2, 0xE9, 7], &[1, 2, 0]];
    for bytes in bad {
        making.expect("arrived 5", MARKER, [0, 0, 0], bytes);
    }
    making.expect("arrived 3", MARKER, [2, 0, 0], &[2, 2, 0xA0, 6]);
    making.expect("arrived 6", MARKER, [0, 0, 0], &[1, 2, 0xDE, 2]);
    // line 0 full: its length and its figures come before its room
    making.with(SET_RECEIVER, USED, 0, SMALL, |making| {
        making.expect("arrived 4", DATA, [0, 5, 0], EMPTY);
        making.expect("arrived 7", DATA, [0, 5, 1], EMPTY);
        making.expect("arrived 5", MARKER, [0, 0, 0], &[1, 2, 0]);
        making.expect("arrived 6", MARKER, [0, 0, 0], &[1, 2, 1]);
        making.expect("arrived 7", MARKER, [0, 0, 0], &[0, 2, 1]);
    });
    making.with(SET_RECEIVER, USED, 0, SMALL - 3, |making| making.expect("arrived 7", DATA, [0, 5, 1], EMPTY));
    making.with(SET_RECEIVER, USED, 0, SMALL - 4, |making| making.expect("arrived 0", DATA, [0, 5, 1], EMPTY));
    making.with(SET_RECEIVER, USED, 0, SMALL - 6, |making| making.expect("arrived 7", MARKER, [0, 0, 0], GOOD));
    making.with(SET_RECEIVER, USED, 0, SMALL - 7, |making| making.expect("arrived 0", MARKER, [0, 0, 0], GOOD));
    making.with(SET_RECEIVER, USED, 1, 0, |making| making.expect("arrived 0", DATA, [1, 5, 500], EMPTY));
}

/// An item of these bytes at line 0's head, which holds so many bytes, and a take and a run that must answer this and take nothing.
fn head(making: &mut Making, answer: &str, used: u32, item: &[u8], room: u32) {
    for (at, byte) in item.iter().enumerate() {
        let place = making.world.receiver.place(0, at) as u32;
        making.set(SET_BYTE, place, 0, u32::from(*byte));
    }
    making.set(SET_RECEIVER, USED, 0, used);
    making.expect(answer, TAKE, [room, 0, 0], EMPTY);
    run(making, &format!("takes 0 0 {answer}"), room, 1);
}

/// A marker at line 0's head.
fn head_marker(making: &mut Making, answer: &str, bytes: &[u8]) {
    let item = [&[1, bytes.len() as u8, 0][..], bytes].concat();
    head(making, answer, item.len() as u32, &item, 500);
}

/// Head items that cannot be one, and an output too short for one that can. The ring is gone round by the item.
fn heads(making: &mut Making) {
    making.open(&record(&PLAN), SMALL);
    making.set(SET_RECEIVER, HEADS, 0, SMALL - 4);
    making.expect("waiting 0", TAKE, [500, 0, 0], EMPTY);
    run(making, "takes 0 0 waiting 0", 500, 4);
    head(making, "refused 9", 1, &[0, 1, 0, 5], 500);
    head(making, "refused 9", 2, &[0, 1, 0, 5], 500);
    head(making, "refused 9", 4, &[2, 1, 0, 5], 500);
    head(making, "refused 9", 4, &[255, 1, 0, 5], 500);
    head(making, "refused 9", 6, &[0, 4, 0, 5, 5, 5, 5], 500);
    head(making, "refused 9", 2000, &[0, 0xFF, 0xFF], 500);
    head(making, "refused 9", 3, &[0, 0, 0], 500);
    head(making, "refused 9", 504, &[0, 245, 1], 501);
    head(making, "refused 9", 504, &[0, 245, 1], 0);
    head(making, "refused 8", 7, &[0, 4, 0, 5, 5, 5, 5], 3);
    head(making, "refused 8", 503, &[0, 244, 1], 499);
    for bytes in [EMPTY, &GOOD[..3], &[0, 2, 0xA0, 6, 7], &[0, 0x82, 0, 0xA0, 6], &[0, 2, 0], &[0, 2, 0xE9, 7], &[1, 2, 0xDE, 2]] {
        head_marker(making, "refused 9", bytes);
    }
    head_marker(making, "refused 9", &[&GOOD[..], &[7; 12]].concat());
}

/// A marker at line 0's head when its line stands at round 1 and so high, taken.
fn told(making: &mut Making, answer: &str, counter: u32, bytes: &[u8]) {
    making.open(&record(&PLAN), SMALL);
    making.set(SET_RECEIVER, COUNTERS, 0, counter);
    making.expect("arrived 0", MARKER, [0, 0, 0], bytes);
    making.expect(answer, TAKE, [0; 3], EMPTY);
}

/// Markers that are just behind and just not, and data that just fits.
fn told_by_markers(making: &mut Making) {
    told(making, "behind 0", 1000, &[0, 0, 1]);
    told(making, "behind 0", 1000, &[0, 0x81, 0x80, 0x80, 0x80, 8, 1]);
    told(making, "behind 0", 999, &[0, 1, 0xE8, 7]);
    told(making, "missing 0 2147483647999", 1000, &[0, 0x80, 0x80, 0x80, 0x80, 8, 1]);
    told(making, "missing 0 0", 999, &[0, 1, 0xE7, 7]);
    told(making, "missing 0 998", 999, &[0, 1, 1]);
    making.open(&record(&PLAN), SMALL);
    making.expect("arrived 0", DATA, [0, 5, 4], EMPTY);
    making.expect("packet 0 4", TAKE, [4, 0, 0], EMPTY);
    making.expect("arrived 0", DATA, [0, 6, 500], EMPTY);
    takes(making, &["packet 0 500 6"]);
}

/// Counters that fall to just 0 and just not, at both ends, and markers due at every full round and at every second.
fn exactly(making: &mut Making) {
    making.open(&record(&PLAN), LARGE);
    let packets = [(0, 500, 0), (0, 500, 0), (1, 499, 0), (1, 1, 1), (0, 500, 0), (0, 499, 0), (0, 1, 0), (1, 500, 1), (0, 1, 0)];
    for (line, length, due) in packets {
        making.expect(&format!("sent {line} {due}"), SEND, [length, 0, 0], EMPTY);
        making.expect("arrived 0", DATA, [line, 1, length], EMPTY);
    }
    for (line, length, _) in packets {
        making.expect(&format!("packet {line} {length}"), TAKE, [500, 0, 0], EMPTY);
    }
    making.open(&record(&[1, 64, 2, 64]), 67);
    for due in [0, 1, 0, 1] {
        making.expect("sent 0 0", SEND, [63, 0, 0], EMPTY);
        making.expect(&format!("sent 0 {due}"), SEND, [1, 0, 0], EMPTY);
    }
    // past the last round comes round 0
    making.set(SET_SENDER, ROUNDS, 0, u32::MAX);
    making.expect("sent 0 0", SEND, [64, 0, 0], EMPTY);
    making.expect("written 3", ASK, [0, 9, 0], EMPTY);
}

/// Every number of the table, by every call that can answer it, but 10.
pub fn numbers(making: &mut Making) {
    more_paper(making);
    runs(making);
    openings(making);
    plans(making);
    senders(making);
    receivers(making);
    arrivals(making);
    heads(making);
    told_by_markers(making);
    exactly(making);
}
