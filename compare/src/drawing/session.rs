//! The session on paper: its packets and markers on two lines, by round.

use super::both_ends::{Booth, Sent};
use super::sheet::Sheet;
use super::strip::Strip;
use super::track::{rounds, Track};
use crate::paper::read_marker;

pub fn drawn() -> Sheet {
    let booth = Booth::session();
    let plan = &booth.plan;
    let words = format!("{} lines, Max {}, K {}, quanta {} and {}", plan.lines, plan.max, plan.interval, plan.quanta[0], plan.quanta[1]);
    let mut sheet = Sheet::new("The session on paper", &described(&booth, &words), 458.0);
    sheet.text("soft end", 872.0, 42.0, &words);
    let tracks = [Track::new(&booth, 0, 124.0, 0.08), Track::new(&booth, 1, 280.0, 0.08)];
    for (line, track) in tracks.iter().enumerate() {
        track.pipe(&mut sheet, &format!("{} a round", plan.quanta[line]));
    }
    rounds(&mut sheet, 68.0, tracks[1].bottom() + 30.0);
    for packet in booth.packets() {
        tracks[packet.line].packet(&mut sheet, packet.number, packet.at, packet.bytes.len() as u64);
    }
    for marker in booth.markers() {
        mark(&mut sheet, &tracks[marker.line], marker, u64::from(plan.quanta[marker.line]));
    }
    order(&mut sheet, &booth.sent);
    sheet
}

/// The picture in words.
fn described(booth: &Booth, plan: &str) -> String {
    let told = |sent: &Sent| match read_marker(&sent.bytes) {
        Ok([line, round, counter]) if sent.is_marker() => format!("a marker on line {line}, of round {round} and counter {counter}"),
        _ => format!("packet {} of {} bytes on line {}", sent.number, sent.bytes.len(), sent.line),
    };
    let all: Vec<String> = booth.sent.iter().map(told).collect();
    let lines = "Two lines drawn as pipes along their rounds, with the packets as blocks in them and markers as flags";
    format!("{lines}; {plan}. Sent in this order: {}.", all.join("; "))
}

/// A marker, and what its counter means: the bytes up to the end of its round.
fn mark(sheet: &mut Sheet, track: &Track, marker: &Sent, quantum: u64) {
    let [_, round, counter] = read_marker(&marker.bytes).expect("the sender wrote it");
    assert_eq!(marker.at + counter, round * quantum, "the counter ends with the round");
    track.marker(sheet, marker.at, &format!("marker: round {round}, counter {counter}"));
    let (from, to, y) = (track.x(marker.at), track.x(marker.at + counter), track.bottom() + 15.0);
    sheet.span("rule", from, to, y);
    sheet.text("soft middle", (from + to) / 2.0, y + 20.0, &format!("{counter} left"));
}

/// Everything sent, in the order of the sender's calls.
fn order(sheet: &mut Sheet, sent: &[Sent]) {
    let strip = Strip::new(sheet, 396.0, "sent in turn");
    for (place, sent) in sent.iter().enumerate() {
        match sent.number {
            0 => strip.marker(sheet, place, sent.line),
            number => strip.packet(sheet, place, sent.line, number),
        }
    }
}
