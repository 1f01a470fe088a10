//! Calls of states and stores that no session leaves: one field changed, a store of another length, noise in a ring, a forged item, or several
//! of these (forge.rs has how), with arguments by chance.

use crate::answers::said;
use crate::cases::begin;
use crate::chance::Chance;
use crate::counts::{take_name, Counts};
use crate::forge::{change_field, data, fill_with_noise, forge, marker, move_rounds, put, some_line};
use crate::pair::Pair;
use crate::session::Session;
use crate::stage::Receiver;

/// Trials on what one session leaves.
const TRIALS: u64 = 40;
/// A trial's number is its session's seed this many times over, and the trial.
const APART: u64 = 64;

/// How a state was damaged, and what of it.
struct Damage {
    kind: &'static str,
    what: &'static str,
}

/// The store cut, grown, or made as long as the state now asks, and which.
fn change_length(receiver: &Receiver, store: &mut Vec<u8>, chance: &mut Chance) -> &'static str {
    let asked = u64::from(receiver.plan.lines) * u64::from(receiver.rings.size);
    let (length, what) = match chance.between(0, 5) {
        0 => (0, "empty"),
        1 => (asked.saturating_sub(1), "one byte short"),
        2 => (asked + 1, "one byte over"),
        3 => (chance.between(0, 70_000), "any"),
        _ => (asked, "as long as asked"),
    };
    if length <= 16 * 65536 {
        store.resize(length as usize, chance.next() as u8);
    }
    what
}

/// Several kinds of damage at once, as chance has it.
fn damage_more(receiver: &mut Receiver, store: &mut Vec<u8>, chance: &mut Chance) {
    if chance.one_in(3) {
        move_rounds(receiver, chance);
    }
    if chance.one_in(3) {
        for _ in 0..chance.between(1, 3) {
            change_field(receiver, chance);
        }
    }
    if !chance.one_in(3) {
        forge(receiver, store, chance);
    }
    if chance.one_in(6) {
        let line = some_line(receiver, chance);
        let front = chance.bytes(3);
        put(receiver, line, &front[..chance.between(1, 3) as usize], store);
    }
    if chance.one_in(60) {
        *receiver = Receiver::default();
    }
    if chance.one_in(6) {
        change_length(receiver, store, chance);
    }
}

fn damaged_pair(base: &Pair, chance: &mut Chance) -> (Pair, Damage) {
    let (mut receiver, mut store) = (base.receiver, base.store.clone());
    let damage = match chance.between(0, 9) {
        0..=2 => Damage { kind: "one field changed", what: change_field(&mut receiver, chance) },
        3 => Damage { kind: "store of another length", what: change_length(&receiver, &mut store, chance) },
        4 => {
            fill_with_noise(&mut receiver, &mut store, chance);
            Damage { kind: "noise in a ring", what: "" }
        }
        5 | 6 => {
            forge(&mut receiver, &mut store, chance);
            Damage { kind: "forged item", what: "" }
        }
        _ => {
            damage_more(&mut receiver, &mut store, chance);
            Damage { kind: "several of these", what: "" }
        }
    };
    (Pair::new(receiver, store), damage)
}

/// The length that stands at the current line's head, as far as there is one.
fn next_length(pair: &Pair) -> usize {
    let receiver = &pair.receiver;
    if receiver.refusal(&pair.store).is_some() {
        return 0;
    }
    let line = receiver.current();
    usize::from(pair.store[receiver.place(line, 1)]) + 256 * usize::from(pair.store[receiver.place(line, 2)])
}

/// An output to lend a take: just long enough, one byte short, or any.
fn output(pair: &Pair, chance: &mut Chance) -> Vec<u8> {
    let length = match chance.between(0, 4) {
        0 => next_length(pair).saturating_sub(1),
        1 => next_length(pair),
        2 => chance.between(0, 200) as usize,
        _ => chance.between(0, u64::from(pair.receiver.plan.max.min(9000)) + 1) as usize,
    };
    chance.bytes(length)
}

/// The number of a refusal that a word tells, else 0.
fn refused(word: u64) -> u32 {
    said(word).err().unwrap_or(0)
}

/// One call. Answers its number where it is refused, else 0.
fn call(pair: &mut Pair, damage: &Damage, chance: &mut Chance, counts: &mut Counts) -> u32 {
    let line = if chance.one_in(3) { chance.between(0, 17) as usize } else { some_line(&pair.receiver, chance) };
    match chance.between(0, 5) {
        0 => {
            let number = pair.data(line as u32, &data(&pair.receiver, chance));
            counts.arrival("damaged receivers, data", number);
            number
        }
        1 => {
            let (record, what) = marker(&pair.receiver, line, chance);
            let number = pair.marker(line as u32, &record);
            counts.count("marker records that came", what);
            counts.arrival("damaged receivers, markers", number);
            number
        }
        2 => {
            let most = chance.between(0, 6);
            let (run, _, log) = pair.takes(&output(pair, chance), &chance.words(most));
            log[..run.taken].iter().for_each(|word| counts.word("damaged receivers, takes of runs", *word));
            counts.run("damaged receivers, runs ended", run.why);
            refused(run.why)
        }
        _ => {
            let (word, _) = pair.take(&output(pair, chance));
            counts.word("damaged receivers, takes", word);
            if damage.kind == "noise in a ring" {
                counts.count("noise in a ring, takes", take_name(word));
            }
            refused(word)
        }
    }
}

fn base(seed: u64) -> Session {
    let chance = &mut begin("receivers", seed * APART);
    let lossy = chance.one_in(2);
    let mut session = Session::open(chance, lossy);
    session.steps(chance.between(0, 120), chance, &mut Counts::new());
    session
}

fn trial(base: &Pair, number: u64, counts: &mut Counts) {
    let chance = &mut begin("receivers", number);
    let (mut pair, damage) = damaged_pair(base, chance);
    counts.count("receivers damaged by", damage.kind);
    let number = call(&mut pair, &damage, chance, counts);
    match (damage.kind, number) {
        ("one field changed", 2) => counts.count("receivers with one field changed, refused with 2", damage.what),
        ("store of another length", 9) => counts.count("stores of another length, refused with 9", damage.what),
        _ => {}
    }
    for _ in 0..chance.between(0, 2) {
        call(&mut pair, &damage, chance, counts);
    }
}

/// What a session leaves, damaged in many ways.
pub fn receivers(seed: u64, counts: &mut Counts) {
    let session = base(seed);
    (0..TRIALS).for_each(|at| trial(&session.pair, seed * APART + at, counts));
}

/// One trial, by its number.
pub fn again(number: u64, counts: &mut Counts) {
    let session = base(number / APART);
    trial(&session.pair, number, counts);
}
