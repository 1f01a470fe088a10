//! Numbers, markers and plans read from bytes by themselves, and numbers written; good bytes and damaged.

use crate::answers;
use crate::cases::{begin, differs};
use crate::chance::Chance;
use crate::counts::{number_name, Counts};
use crate::pair::longer;
use crate::paper::{self, record, MARKER};
use crate::proved;
use crate::records::{damaged, noise, plan_record};

const LENGTHS: [&str; 6] = ["", "1 byte", "2 bytes", "3 bytes", "4 bytes", "5 bytes"];

/// A number of any size, often at the end of those of its length.
fn some_number(chance: &mut Chance) -> u64 {
    let bits = chance.between(1, 33);
    match chance.between(0, 3) {
        0 => (1 << bits) - 1,
        1 => 1 << bits,
        _ => chance.next() & ((1 << bits) - 1),
    }
}

/// A record as it is, damaged, or noise in its place; and which.
pub fn perhaps_damaged(whole: Vec<u8>, chance: &mut Chance) -> (Vec<u8>, &'static str) {
    match chance.between(0, 7) {
        0..=2 => damaged(whole, chance),
        3 => (noise(chance), "noise"),
        _ => (whole, "whole"),
    }
}

/// A reading and a writing: the number at the front of bytes with others behind it, and a number into an output.
pub fn numbers(seed: u64, counts: &mut Counts) {
    let chance = &mut begin("numbers", seed);
    let (mut bytes, _) = perhaps_damaged(record(&[some_number(chance)]), chance);
    bytes.extend((0..chance.between(0, 3)).map(|_| chance.next() as u8));
    let proved = proved::read_number(&bytes);
    let second = match paper::read(&bytes) {
        Some((number, rest)) => answers::number_read(bytes.len() - rest.len(), number as u64),
        None => u64::from(answers::refusal(MARKER)),
    };
    if proved != second {
        differs("a number read", format!("{bytes:02x?}: {proved:x} and {second:x}"));
    }
    counts.count("numbers read", answers::place(proved).map_or_else(number_name, |place| LENGTHS[place]));

    let (value, room) = (some_number(chance) as u32, chance.between(0, 8) as usize);
    let before = chance.bytes(room);
    let mut out = longer(&before, 0xEE);
    let proved = proved::write_number(value, &mut out[..room]);
    let (second, after) = paper::put(None, &record(&[u64::from(value)]), &before);
    if proved != second || out != longer(&after, 0xEE) {
        differs("a number written", format!("{value} into {before:02x?}: {proved} {out:02x?} and {second} {after:02x?}"));
    }
    counts.count("numbers written", answers::said(proved).map_or_else(number_name, |length| LENGTHS[length as usize]));
}

pub fn markers(seed: u64, counts: &mut Counts) {
    let chance = &mut begin("readings", seed);
    let whole = record(&[chance.near(0, 15), some_number(chance), chance.near(1, 1_048_576)]);
    let (bytes, what) = perhaps_damaged(whole, chance);
    let (proved, second) = (proved::read_marker(&bytes), paper::read_marker(&bytes));
    let expected = second.map_or_else(|number| u64::from(answers::refusal(number)), answers::marker_read);
    if proved != expected {
        differs("a marker read by itself", format!("{bytes:02x?}: {proved:x} and {second:?}"));
    }
    counts.count("markers read by themselves", what);
    counts.count("markers read by themselves, answers", second.map_or_else(number_name, |_| "good"));
}

pub fn plans(seed: u64, counts: &mut Counts) {
    let chance = &mut begin("copies", seed);
    let (bytes, _) = perhaps_damaged(plan_record(chance), chance);
    let room = chance.between(bytes.len().saturating_sub(4) as u64, bytes.len() as u64 + 9) as usize;
    let before = chance.bytes(room);
    let mut out = longer(&before, 0xEE);
    let proved = proved::copy_plan(&bytes, &mut out[..room]);
    let (second, after) = paper::copy_plan(&bytes, &before);
    if proved != second || out != longer(&after, 0xEE) {
        differs("a plan copied", format!("{bytes:02x?} into {before:02x?}: {proved} {out:02x?} and {second} {after:02x?}"));
    }
    counts.count("plans copied", answers::said(proved).map_or_else(number_name, |_| "copied"));
}
