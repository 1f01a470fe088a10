//! The session on paper with packet 2 lost, as the specification tells it: once with the markers after packet 5, once without markers.

use crate::answers::went;
use crate::cases::{begin, differs};
use crate::counts::Counts;
use crate::pair::{opened, Pair};
use crate::paper::Sender;
use crate::taking::Outcome;

const PLAN: [u8; 8] = [0x02, 0xF4, 0x03, 0x01, 0xE8, 0x07, 0xF4, 0x03];
const LENGTHS: [usize; 8] = [400, 500, 300, 450, 200, 500, 500, 100];

/// A packet handed out by its number on paper (its bytes are all that number), or what else a take comes to.
fn told(word: u64, out: &[u8]) -> String {
    match Outcome::of(word) {
        Outcome::Data { .. } => format!("{}", out[0]),
        Outcome::Marker { line, missing } => format!("line {line} misses {missing}"),
        Outcome::Waiting { line } => format!("waiting on {line}"),
        other => format!("{other:?}"),
    }
}

/// What the takes come to, up to the first that waits, and how many bytes are held then.
fn session(with_markers: bool) -> (String, u32) {
    let (_, mut sender) = Sender::open(&PLAN);
    let mut pair = Pair::new(opened(&PLAN, 4000).1, vec![0; 8000]);
    for (number, length) in (1u8..).zip(LENGTHS) {
        let (line, _) = went(sender.send(length)).expect("a length in range");
        if number != 2 {
            pair.data(line, &vec![number; length]);
        }
        for line in (0..2).filter(|_| with_markers && number == 5) {
            let (length, record) = sender.marker(line, &[0; 9]);
            pair.marker(line, &record[..length as usize]);
        }
    }
    let mut all = Vec::new();
    while all.last().is_none_or(|last: &String| !last.starts_with("waiting")) {
        let (word, out) = pair.take(&[0; 500]);
        all.push(told(word, &out));
    }
    (all.join(", "), pair.receiver.rings.used.iter().sum())
}

/// The seed changes nothing: it is the session of the paper.
pub fn compare(seed: u64, _: &mut Counts) {
    begin("example", seed);
    for (with_markers, expected) in [
        (true, ("1, 3, line 0 misses 500, 4, 5, 6, 7, line 1 misses 0, 8, waiting on 1", 0)),
        (false, ("1, 3, 6, 4, 5, 7, waiting on 0", 103)),
    ] {
        let (all, held) = session(with_markers);
        if (all.as_str(), held) != expected {
            differs("the session on paper", format!("{all}; {held} bytes held, and {expected:?}"));
        }
    }
}
