//! What no session leaves: words of a state changed, rounds at the wrap or far apart, and items forged at a line's head. Also the markers and
//! the data that arrive by chance, good and bad.

use crate::chance::Chance;
use crate::paper::record;
use crate::records::{damaged, noise};
use crate::stage::Receiver;

/// A word for another: near it, far from it, at the end of some range, or any.
fn other_word(was: u32, chance: &mut Chance) -> u32 {
    match chance.between(0, 8) {
        0 => was.wrapping_add(1),
        1 => was.wrapping_sub(1),
        2 => was ^ 1 << 31,
        3 => chance.near(0, 16) as u32,
        4 => chance.near(64, 9000) as u32,
        5 => chance.near(67, 65536) as u32,
        6 => chance.near(1, 1_048_576) as u32,
        7 => u32::MAX - chance.between(0, 3) as u32,
        _ => chance.next() as u32,
    }
}

/// One field changed, of a line that the plan has where it is a line's, and which.
pub fn change_field(receiver: &mut Receiver, chance: &mut Chance) -> &'static str {
    let lines = if chance.one_in(8) { 16 } else { u64::from(receiver.plan.lines.clamp(1, 16)) };
    let at = chance.between(0, lines - 1) as usize;
    let (word, name) = match chance.between(0, 9) {
        0 => (&mut receiver.plan.lines, "lines"),
        1 => (&mut receiver.plan.max, "max"),
        2 => (&mut receiver.plan.interval, "interval"),
        3 => (&mut receiver.plan.quanta[at], "quanta"),
        4 => (&mut receiver.rings.size, "size"),
        5 => (&mut receiver.turns.round, "round"),
        6 => (&mut receiver.turns.rounds[at], "rounds"),
        7 => (&mut receiver.turns.counters[at], "counters"),
        8 => (&mut receiver.rings.heads[at], "heads"),
        _ => (&mut receiver.rings.used[at], "used"),
    };
    *word = other_word(*word, chance);
    name
}

/// All rounds moved on alike, to the wrap or anywhere; now and then one of them 2^31 or nearly so from the current one.
pub fn move_rounds(receiver: &mut Receiver, chance: &mut Chance) {
    let to = if chance.one_in(2) { u32::MAX - chance.between(0, 3) as u32 } else { chance.next() as u32 };
    let by = to.wrapping_sub(receiver.turns.round);
    receiver.turns.round = to;
    for round in &mut receiver.turns.rounds {
        *round = round.wrapping_add(by);
    }
    if chance.one_in(3) {
        receiver.turns.rounds[chance.between(0, 15) as usize] = to.wrapping_add((1 << 31) - 2).wrapping_add(chance.between(0, 3) as u32);
    }
}

/// A marker for a line, mostly good: its round near the line's or about 2^31 from it, its counter near the line's or the ends of its range; and
/// whether it is whole, damaged or noise.
pub fn marker(receiver: &Receiver, line: usize, chance: &mut Chance) -> (Vec<u8>, &'static str) {
    let (round, counter, quantum) = (receiver.turns.rounds[line % 16], receiver.turns.counters[line % 16], receiver.plan.quanta[line % 16]);
    let ahead = match chance.between(0, 4) {
        0 | 1 => 0,
        2 => chance.between(0, 5) as u32,
        3 => (1 << 31) - 2 + chance.between(0, 3) as u32,
        _ => chance.next() as u32,
    };
    let counter = match chance.between(0, 2) {
        0 => counter.wrapping_add(chance.between(0, 2) as u32).wrapping_sub(1),
        1 => quantum.wrapping_add(chance.between(0, 2) as u32).wrapping_sub(1),
        _ => chance.near(1, u64::from(quantum.max(1))) as u32,
    };
    let named = if chance.one_in(8) { chance.near(0, 15) } else { line as u64 };
    let whole = record(&[named, u64::from(round.wrapping_add(ahead)), u64::from(counter)]);
    match chance.between(0, 15) {
        0..=2 => damaged(whole, chance),
        3 => (noise(chance), "noise"),
        _ => (whole, "whole"),
    }
}

pub fn data(receiver: &Receiver, chance: &mut Chance) -> Vec<u8> {
    let max = u64::from(receiver.plan.max.min(9000));
    let length = match chance.between(0, 9) {
        0 => 0,
        1 => max,
        2 => max + 1,
        3 => chance.between(0, 9001),
        _ => chance.between(1, max.max(1)),
    };
    chance.bytes(length as usize)
}

/// The current line, mostly, or any that there could be.
pub fn some_line(receiver: &Receiver, chance: &mut Chance) -> usize {
    let current = receiver.turns.rounds.iter().position(|round| *round == receiver.turns.round);
    current.filter(|_| !chance.one_in(4)).unwrap_or(chance.between(0, 15) as usize)
}

/// Bytes put over a line's ring from its head on, as far as the ring is in the store.
pub fn put(receiver: &Receiver, line: usize, bytes: &[u8], store: &mut [u8]) {
    if receiver.rings.size > 0 {
        for (behind, byte) in bytes.iter().enumerate() {
            let place = line as u64 * u64::from(receiver.rings.size) + (u64::from(receiver.rings.heads[line]) + behind as u64) % u64::from(receiver.rings.size);
            if let Some(at) = store.get_mut(place as usize) {
                *at = *byte;
            }
        }
    }
}

/// An item forged at a line's head: a kind that may be none, a length that may lie, and so many bytes held, or nearly.
pub fn forge(receiver: &mut Receiver, store: &mut [u8], chance: &mut Chance) {
    let line = some_line(receiver, chance);
    let is_marker = chance.one_in(2);
    let bytes = if is_marker { marker(receiver, line, chance).0 } else { data(receiver, chance) };
    let kind = if chance.one_in(12) { chance.near(0, 2) as u8 } else { u8::from(is_marker) };
    let length = if chance.one_in(12) { chance.near(0, 9001) as u16 } else { bytes.len() as u16 };
    let item: Vec<u8> = [kind, length as u8, (length >> 8) as u8].into_iter().chain(bytes).collect();
    put(receiver, line, &item, store);
    if !chance.one_in(4) {
        let most = u64::from(receiver.rings.size);
        let needed = item.len() as u64;
        receiver.rings.used[line] = match chance.between(0, 5) {
            0 => chance.between(0, 3).min(most),
            1 => (needed - 1).min(most),
            2 => chance.between(needed.min(most), most),
            _ => needed.min(most),
        } as u32;
    }
}

/// A line's whole ring as noise, small numbers often among it, and any of it used.
pub fn fill_with_noise(receiver: &mut Receiver, store: &mut [u8], chance: &mut Chance) {
    let line = some_line(receiver, chance) % receiver.plan.lines.max(1) as usize;
    let size = receiver.rings.size as usize;
    for byte in &mut store[line * size..(line + 1) * size] {
        *byte = if chance.one_in(2) { chance.between(0, 2) as u8 } else { chance.next() as u8 };
    }
    receiver.rings.heads[line] = chance.between(0, size as u64 - 1) as u32;
    receiver.rings.used[line] = chance.near(0, size as u64).min(size as u64) as u32;
}
