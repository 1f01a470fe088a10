//! Plays the recording through the archives: it must print what was recorded from the second program alone, and bring about all that a recording
//! must.

use crate::cases::{begin, differs};
use crate::counts::Counts;
use crate::paper::{Plan, Sender};
use crate::player::{printed, unseen, Calls, Second};
use crate::proved;
use crate::stage::Receiver;
use crate::taking::StageRun;

const INPUT: &[u8] = include_bytes!("../../crates/player/stdin");
const OUTPUT: &str = include_str!("../../crates/player/stdout");

/// The archives'.
struct Proved;

impl Calls for Proved {
    fn check_plan(&self, record: &[u8]) -> u32 {
        proved::check_plan(record)
    }

    fn write_plan(&self, plan: &Plan, out: &mut [u8]) -> u32 {
        proved::write_plan(plan, out)
    }

    fn open_sender(&self, sender: &mut Sender, record: &[u8]) -> u32 {
        proved::open(sender, record)
    }

    fn open_receiver(&self, receiver: &mut Receiver, record: &[u8], size: u32) -> u32 {
        proved::open_receiver(receiver, record, size)
    }

    fn send(&self, sender: &mut Sender, length: usize) -> u32 {
        proved::send(sender, length)
    }

    fn ask(&self, sender: &Sender, line: u32, out: &mut [u8]) -> u32 {
        proved::marker(sender, line, out)
    }

    fn data(&self, receiver: &mut Receiver, line: u32, bytes: &[u8], store: &mut [u8]) -> u32 {
        proved::data_arrives(receiver, line, bytes, store)
    }

    fn marker(&self, receiver: &mut Receiver, line: u32, bytes: &[u8], store: &mut [u8]) -> u32 {
        proved::marker_arrives(receiver, line, bytes, store)
    }

    fn take(&self, receiver: &mut Receiver, store: &[u8], out: &mut [u8]) -> u64 {
        proved::take(receiver, store, out)
    }

    fn takes(&self, receiver: &mut Receiver, store: &[u8], out: &mut [u8], log: &mut [u64]) -> StageRun {
        proved::takes(receiver, store, out, log)
    }
}

/// The seed changes nothing: the steps are the recorded ones.
pub fn compare(seed: u64, counts: &mut Counts) {
    begin("recorded", seed);
    for (side, text) in [("the archives", printed(INPUT, &Proved)), ("the second program", printed(INPUT, &Second))] {
        if let Some(at) = text.lines().zip(OUTPUT.lines()).position(|(one, other)| one != other) {
            let lines = (text.lines().nth(at).unwrap_or(""), OUTPUT.lines().nth(at).unwrap_or(""));
            differs("the recording", format!("{side}, line {}: {:?} and recorded {:?}", at + 1, lines.0, lines.1));
        }
        if text != OUTPUT {
            differs("the recording", format!("{side}: {} bytes and recorded {}", text.len(), OUTPUT.len()));
        }
    }
    let unseen = unseen(OUTPUT);
    if !unseen.is_empty() {
        differs("the recording", format!("it lacks {}", unseen.join(", ")));
    }
    counts.add("recorded steps", "lines compared", OUTPUT.lines().count() as u64);
}
