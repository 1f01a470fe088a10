//! Parts and their cases. The case that is played is kept here, so that a difference can print the words that play it again by itself.

use crate::chance::{seed, Chance};
use crate::counts::Counts;
use std::cell::Cell;

pub struct Part {
    pub name: &'static str,
    /// In a run of the usual length.
    pub cases: u64,
    /// Plays the cases of a seed, mostly one.
    pub play: fn(u64, &mut Counts),
    /// Plays one case by the number that a difference prints.
    pub again: fn(u64, &mut Counts),
}

/// How long a run is, the usual one being 1: so many times, divided by so many.
#[derive(Clone, Copy)]
pub struct Times(u64, u64);

impl Times {
    pub const USUAL: Times = Times(1, 1);

    /// As words say it: `10`, or `1/4`.
    pub fn of(word: &str) -> Option<Times> {
        let (times, parts) = word.split_once('/').unwrap_or((word, "1"));
        Some(Times(times.parse().ok()?, parts.parse().ok().filter(|parts| *parts > 0)?))
    }
}

thread_local! {
    static PLAYED: Cell<Option<(&'static str, u64)>> = const { Cell::new(None) };
}

/// A case begins; it draws from its seed alone.
pub fn begin(part: &'static str, seed: u64) -> Chance {
    PLAYED.set(Some((part, seed)));
    Chance::new(seed)
}

fn print_again() {
    if let Some((part, seed)) = PLAYED.get() {
        println!("again: compare/run again {part} {seed}");
    }
}

pub fn differs(what: &str, shown: String) -> ! {
    println!("DIFFERENT: {what}: {shown}");
    print_again();
    std::process::exit(1)
}

/// A check of the second program's own that fails is told in the same way.
pub fn tell_failures() {
    std::panic::set_hook(Box::new(|failure| {
        println!("DIFFERENT: {failure}");
        print_again();
    }));
}

impl Part {
    /// The cases of a run: a longer run plays the same first, and the shortest one of each part.
    pub fn run(&self, base: u64, times: Times, counts: &mut Counts) {
        for number in 0..(self.cases * times.0).div_ceil(times.1) {
            (self.play)(seed(base, self.name, number), counts);
        }
        PLAYED.set(None);
    }
}
