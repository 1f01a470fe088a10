//! The archives' functions, each call counted. The benchmark calls them uncounted.

use crate::archive;
use crate::paper::{Plan, Sender};
use crate::stage::Receiver;
use crate::taking::StageRun;
use std::sync::atomic::{AtomicU64, Ordering};

const NAMES: [&str; 16] = [
    "stripes_read_number",
    "stripes_write_number",
    "stripes_read_marker",
    "stripes_write_plan",
    "stripes_read_plan",
    "stripes_copy_plan",
    "stripes_write_marker",
    "stripes_check_plan",
    "stripes_open",
    "stripes_send",
    "stripes_marker",
    "stage_open",
    "stage_data",
    "stage_marker",
    "stage_take",
    "stage_takes",
];

static CALLS: [AtomicU64; NAMES.len()] = [const { AtomicU64::new(0) }; NAMES.len()];

fn count(name: &str) {
    let at = NAMES.iter().position(|each| *each == name).expect("every function has its count");
    CALLS[at].fetch_add(1, Ordering::Relaxed);
}

/// How many calls there were, by function.
pub fn calls() -> Vec<(&'static str, u64)> {
    NAMES.into_iter().zip(CALLS.iter().map(|calls| calls.load(Ordering::Relaxed))).collect()
}

pub fn read_number(bytes: &[u8]) -> u64 {
    count("stripes_read_number");
    archive::read_number(bytes)
}

pub fn write_number(value: u32, out: &mut [u8]) -> u32 {
    count("stripes_write_number");
    archive::write_number(value, out)
}

pub fn read_marker(bytes: &[u8]) -> u64 {
    count("stripes_read_marker");
    archive::read_marker(bytes)
}

pub fn write_plan(plan: &Plan, out: &mut [u8]) -> u32 {
    count("stripes_write_plan");
    archive::write_plan(plan, out)
}

pub fn read_plan(plan: &mut Plan, record: &[u8]) -> u32 {
    count("stripes_read_plan");
    archive::read_plan(plan, record)
}

pub fn copy_plan(record: &[u8], out: &mut [u8]) -> u32 {
    count("stripes_copy_plan");
    archive::copy_plan(record, out)
}

pub fn write_marker(line: u32, round: u32, counter: u32, out: &mut [u8]) -> u32 {
    count("stripes_write_marker");
    archive::write_marker(line, round, counter, out)
}

pub fn check_plan(record: &[u8]) -> u32 {
    count("stripes_check_plan");
    archive::check_plan(record)
}

pub fn open(sender: &mut Sender, record: &[u8]) -> u32 {
    count("stripes_open");
    archive::open(sender, record)
}

pub fn send(sender: &mut Sender, length: usize) -> u32 {
    count("stripes_send");
    archive::send(sender, length)
}

pub fn marker(sender: &Sender, line: u32, out: &mut [u8]) -> u32 {
    count("stripes_marker");
    archive::marker(sender, line, out)
}

pub fn open_receiver(receiver: &mut Receiver, record: &[u8], size: u32) -> u32 {
    count("stage_open");
    archive::open_receiver(receiver, record, size)
}

pub fn data_arrives(receiver: &mut Receiver, line: u32, bytes: &[u8], store: &mut [u8]) -> u32 {
    count("stage_data");
    archive::data_arrives(receiver, line, bytes, store)
}

pub fn marker_arrives(receiver: &mut Receiver, line: u32, bytes: &[u8], store: &mut [u8]) -> u32 {
    count("stage_marker");
    archive::marker_arrives(receiver, line, bytes, store)
}

pub fn take(receiver: &mut Receiver, store: &[u8], out: &mut [u8]) -> u64 {
    count("stage_take");
    archive::take(receiver, store, out)
}

pub fn takes(receiver: &mut Receiver, store: &[u8], out: &mut [u8], log: &mut [u64]) -> StageRun {
    count("stage_takes");
    archive::takes(receiver, store, out, log)
}
