//! The take loop as one would write it in Rust for speed, with the same answers: state and store are checked once for a run, each item by
//! itself. The benchmark times it beside the archive's.

use crate::answers::FULL;
use crate::paper::{OUTPUT, STORE};
use crate::stage::Receiver;
use crate::taking::{Outcome, StageRun};

/// A line's bytes in the store, from its head on.
struct Ring<'a> {
    bytes: &'a [u8],
    head: usize,
}

impl Ring<'_> {
    fn place(&self, behind: usize) -> usize {
        let at = self.head + behind;
        if at < self.bytes.len() { at } else { at - self.bytes.len() }
    }

    fn byte(&self, behind: usize) -> u8 {
        self.bytes[self.place(behind)]
    }

    /// At most two runs: up to the end of the ring, and from its start.
    fn copy(&self, behind: usize, into: &mut [u8]) {
        let (start, from) = self.bytes.split_at(self.place(behind));
        if into.len() <= from.len() {
            into.copy_from_slice(&from[..into.len()]);
        } else {
            let (first, second) = into.split_at_mut(from.len());
            first.copy_from_slice(from);
            second.copy_from_slice(&start[..second.len()]);
        }
    }
}

/// The number at the front, in its shortest form below 2^32, and what is behind it.
fn number(bytes: &[u8]) -> Option<(u32, &[u8])> {
    let mut value = 0u64;
    for (at, byte) in bytes.iter().take(5).enumerate() {
        value |= u64::from(byte & 0x7f) << (7 * at);
        if byte & 0x80 == 0 {
            let shortest = at == 0 || *byte != 0;
            return Some((u32::try_from(value).ok().filter(|_| shortest)?, &bytes[at + 1..]));
        }
    }
    None
}

/// The numbers of a marker.
fn marker(bytes: &[u8]) -> Option<(u32, u32, u32)> {
    let (line, bytes) = number(bytes)?;
    let (round, bytes) = number(bytes)?;
    let (counter, bytes) = number(bytes)?;
    bytes.is_empty().then_some((line, round, counter))
}

/// The line to take from once this one's round has risen; the current round moves on where no line is left at it.
fn next_line(receiver: &mut Receiver, line: usize) -> usize {
    let rounds = &receiver.turns.rounds[..receiver.plan.lines as usize];
    if let Some(after) = rounds[line + 1..].iter().position(|round| *round == receiver.turns.round) {
        return line + 1 + after;
    }
    let ahead = |line: &usize| rounds[*line].wrapping_sub(receiver.turns.round);
    let nearest = (0..rounds.len()).min_by_key(ahead).unwrap_or(0);
    receiver.turns.round = rounds[nearest];
    nearest
}

/// What a take has done: its word, the bytes that it wrote, and whether the line's round has risen.
struct Step {
    word: u64,
    bytes: usize,
    raised: bool,
}

fn refused(number: u32) -> u64 {
    Outcome::Refused(number).word()
}

/// Takes the bytes of a data item to the output, where it is one and has room.
fn take_data(receiver: &mut Receiver, line: usize, ring: &Ring, bytes: usize, out: &mut [u8]) -> Result<Step, u64> {
    if !(1..=receiver.plan.max as usize).contains(&bytes) {
        return Err(refused(STORE));
    }
    ring.copy(3, out.get_mut(..bytes).ok_or(refused(OUTPUT))?);
    let (counter, length) = (receiver.turns.counters[line], bytes as u32);
    let raised = counter <= length;
    if raised {
        receiver.turns.counters[line] = counter + receiver.plan.quanta[line] - length;
        receiver.turns.rounds[line] = receiver.turns.rounds[line].wrapping_add(1);
    } else {
        receiver.turns.counters[line] = counter - length;
    }
    Ok(Step { word: Outcome::Data { line, length: bytes }.word(), bytes, raised })
}

/// Applies a marker item, where it is one.
fn take_marker(receiver: &mut Receiver, line: usize, ring: &Ring, length: usize) -> Option<Step> {
    let mut buffer = [0; 15];
    let bytes = buffer.get_mut(..length)?;
    ring.copy(3, bytes);
    let (named, round, counter) = marker(bytes)?;
    let quantum = receiver.plan.quanta[line];
    if named as usize != line || counter == 0 || counter > quantum {
        return None;
    }
    let ahead = round.wrapping_sub(receiver.turns.rounds[line]);
    if ahead >= 1 << 31 || ahead == 0 && counter > receiver.turns.counters[line] {
        return Some(Step { word: Outcome::Behind { line }.word(), bytes: 0, raised: false });
    }
    let missing = u64::from(ahead) * u64::from(quantum) + u64::from(receiver.turns.counters[line]) - u64::from(counter);
    receiver.turns.rounds[line] = round;
    receiver.turns.counters[line] = counter;
    Some(Step { word: Outcome::Marker { line, missing }.word(), bytes: 0, raised: ahead > 0 })
}

/// One take from a line; else the word of the take that takes nothing.
fn take(receiver: &mut Receiver, line: usize, store: &[u8], out: &mut [u8]) -> Result<Step, u64> {
    let (size, used) = (receiver.rings.size as usize, receiver.rings.used[line] as usize);
    if used == 0 {
        return Err(Outcome::Waiting { line }.word());
    }
    if used < 3 {
        return Err(refused(STORE));
    }
    let ring = Ring { bytes: &store[line * size..][..size], head: receiver.rings.heads[line] as usize };
    let length = usize::from(u16::from_le_bytes([ring.byte(1), ring.byte(2)]));
    if 3 + length > used {
        return Err(refused(STORE));
    }
    let step = match ring.byte(0) {
        0 => take_data(receiver, line, &ring, length, out)?,
        1 => take_marker(receiver, line, &ring, length).ok_or(refused(STORE))?,
        _ => return Err(refused(STORE)),
    };
    receiver.rings.heads[line] = ring.place(3 + length) as u32;
    receiver.rings.used[line] = (used - 3 - length) as u32;
    Ok(step)
}

/// As the archive's `stage_takes`.
pub fn takes(receiver: &mut Receiver, store: &[u8], out: &mut [u8], log: &mut [u64]) -> StageRun {
    if let Some(number) = receiver.refusal(store) {
        return StageRun { why: refused(number), taken: 0, bytes: 0 };
    }
    let (mut line, mut bytes) = (receiver.current(), 0);
    for (taken, word) in log.iter_mut().enumerate() {
        let step = match take(receiver, line, store, &mut out[bytes..]) {
            Ok(step) => step,
            Err(why) => return StageRun { why, taken, bytes },
        };
        *word = step.word;
        bytes += step.bytes;
        if step.raised {
            line = next_line(receiver, line);
        }
    }
    StageRun { why: FULL, taken: log.len(), bytes }
}
