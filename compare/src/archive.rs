//! The proved functions of both archives, the booth's (include/booth.h) and the stage's (include/stage.h). A slice is a pointer and a length.

use crate::paper::{Plan, Sender};
use crate::stage::Receiver;
use crate::taking::StageRun;

extern "C" {
    fn stripes_write_marker(line: u32, round: u32, counter: u32, out: *mut u8, out_len: usize) -> u32;
    fn stripes_check_plan(record: *const u8, record_len: usize) -> u32;
    fn stripes_read_number(bytes: *const u8, bytes_len: usize) -> u64;
    fn stripes_write_number(value: u32, out: *mut u8, out_len: usize) -> u32;
    fn stripes_read_marker(bytes: *const u8, bytes_len: usize) -> u64;
    fn stripes_write_plan(plan: *const Plan, out: *mut u8, out_len: usize) -> u32;
    fn stripes_read_plan(plan: *mut Plan, record: *const u8, record_len: usize) -> u32;
    fn stripes_copy_plan(record: *const u8, record_len: usize, out: *mut u8, out_len: usize) -> u32;
    fn stripes_open(sender: *mut Sender, record: *const u8, record_len: usize) -> u32;
    fn stripes_send(sender: *mut Sender, length: usize) -> u32;
    fn stripes_marker(sender: *const Sender, line: u32, out: *mut u8, out_len: usize) -> u32;

    fn stage_open(receiver: *mut Receiver, record: *const u8, record_len: usize, size: u32) -> u32;
    fn stage_data(receiver: *mut Receiver, line: u32, bytes: *const u8, len: usize, store: *mut u8, store_len: usize) -> u32;
    fn stage_marker(receiver: *mut Receiver, line: u32, bytes: *const u8, len: usize, store: *mut u8, store_len: usize) -> u32;
    fn stage_take(receiver: *mut Receiver, store: *const u8, store_len: usize, out: *mut u8, out_len: usize) -> u64;
    fn stage_takes(receiver: *mut Receiver, store: *const u8, store_len: usize, out: *mut u8, out_len: usize, log: *mut u64, log_len: usize) -> StageRun;
}

pub fn write_marker(line: u32, round: u32, counter: u32, out: &mut [u8]) -> u32 {
    unsafe { stripes_write_marker(line, round, counter, out.as_mut_ptr(), out.len()) }
}

pub fn check_plan(record: &[u8]) -> u32 {
    unsafe { stripes_check_plan(record.as_ptr(), record.len()) }
}

pub fn read_number(bytes: &[u8]) -> u64 {
    unsafe { stripes_read_number(bytes.as_ptr(), bytes.len()) }
}

pub fn write_number(value: u32, out: &mut [u8]) -> u32 {
    unsafe { stripes_write_number(value, out.as_mut_ptr(), out.len()) }
}

pub fn read_marker(bytes: &[u8]) -> u64 {
    unsafe { stripes_read_marker(bytes.as_ptr(), bytes.len()) }
}

pub fn write_plan(plan: &Plan, out: &mut [u8]) -> u32 {
    unsafe { stripes_write_plan(plan, out.as_mut_ptr(), out.len()) }
}

pub fn read_plan(plan: &mut Plan, record: &[u8]) -> u32 {
    unsafe { stripes_read_plan(plan, record.as_ptr(), record.len()) }
}

pub fn copy_plan(record: &[u8], out: &mut [u8]) -> u32 {
    unsafe { stripes_copy_plan(record.as_ptr(), record.len(), out.as_mut_ptr(), out.len()) }
}

pub fn open(sender: &mut Sender, record: &[u8]) -> u32 {
    unsafe { stripes_open(sender, record.as_ptr(), record.len()) }
}

pub fn send(sender: &mut Sender, length: usize) -> u32 {
    unsafe { stripes_send(sender, length) }
}

pub fn marker(sender: &Sender, line: u32, out: &mut [u8]) -> u32 {
    unsafe { stripes_marker(sender, line, out.as_mut_ptr(), out.len()) }
}

pub fn open_receiver(receiver: &mut Receiver, record: &[u8], size: u32) -> u32 {
    unsafe { stage_open(receiver, record.as_ptr(), record.len(), size) }
}

pub fn data_arrives(receiver: &mut Receiver, line: u32, bytes: &[u8], store: &mut [u8]) -> u32 {
    unsafe { stage_data(receiver, line, bytes.as_ptr(), bytes.len(), store.as_mut_ptr(), store.len()) }
}

pub fn marker_arrives(receiver: &mut Receiver, line: u32, bytes: &[u8], store: &mut [u8]) -> u32 {
    unsafe { stage_marker(receiver, line, bytes.as_ptr(), bytes.len(), store.as_mut_ptr(), store.len()) }
}

pub fn take(receiver: &mut Receiver, store: &[u8], out: &mut [u8]) -> u64 {
    unsafe { stage_take(receiver, store.as_ptr(), store.len(), out.as_mut_ptr(), out.len()) }
}

pub fn takes(receiver: &mut Receiver, store: &[u8], out: &mut [u8], log: &mut [u64]) -> StageRun {
    unsafe { stage_takes(receiver, store.as_ptr(), store.len(), out.as_mut_ptr(), out.len(), log.as_mut_ptr(), log.len()) }
}
