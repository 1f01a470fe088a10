//! Holds the proved functions against the second program on many cases, valid and damaged. Exits with 1 at the first difference, which it
//! prints with the words that play its case again, and where a run has not seen what it must see.
//!
//!     compare [TIMES [SEED]]    a run, so many times as long as usual (10, 1/4)
//!     compare again PART SEED   one case
//!     compare bench             times sends and takes instead
//!
//! Where the archives are for another processor than the machine's, all of it runs under an emulator; STRIPES_RUN names that for `stripes`.

mod answers;
mod archive;
mod bench;
mod bench_takes;
mod cases;
mod chance;
mod counts;
mod damage;
mod example;
mod forge;
mod pair;
mod paper;
mod plain;
mod play;
mod player;
mod positions;
mod program;
mod proved;
mod readings;
mod receiving;
mod recorded;
mod records;
mod sending;
mod session;
mod stage;
mod structs;
mod taking;
mod text;

use cases::{Part, Times};
use counts::Counts;

const SEED: u64 = 2026;
const LEAST_CALLS: u64 = 1_000_000;

const PARTS: [Part; 15] = [
    Part { name: "numbers", cases: 300_000, play: readings::numbers, again: readings::numbers },
    Part { name: "readings", cases: 200_000, play: readings::markers, again: readings::markers },
    Part { name: "copies", cases: 100_000, play: readings::plans, again: readings::plans },
    Part { name: "structs", cases: 150_000, play: structs::plans, again: structs::plans },
    Part { name: "plans", cases: 200_000, play: records::plans, again: records::plans },
    Part { name: "markers", cases: 400_000, play: records::markers, again: records::markers },
    Part { name: "senders", cases: 2_000, play: sending::sessions, again: sending::sessions },
    Part { name: "intervals", cases: 4, play: sending::intervals, again: sending::intervals },
    Part { name: "states", cases: 300_000, play: sending::states, again: sending::states },
    Part { name: "openings", cases: 100_000, play: receiving::openings, again: receiving::openings },
    Part { name: "sessions", cases: 4_000, play: play::sessions, again: play::sessions },
    Part { name: "receivers", cases: 15_000, play: damage::receivers, again: damage::again },
    Part { name: "texts", cases: 600, play: program::texts, again: program::texts },
    Part { name: "example", cases: 1, play: example::compare, again: example::compare },
    Part { name: "recorded", cases: 1, play: recorded::compare, again: recorded::compare },
];

/// Prints how many calls there were, and answers what is too few.
fn print_calls() -> Vec<String> {
    let calls = proved::calls();
    let all: u64 = calls.iter().map(|each| each.1).sum();
    let each: Vec<String> = calls.iter().map(|(name, calls)| format!("{name} {calls}")).collect();
    println!("compare: {all} calls of the proved functions: {}", each.join(", "));
    let never = calls.iter().filter(|each| each.1 == 0).map(|each| format!("no call of {}", each.0));
    let few = (all < LEAST_CALLS).then(|| format!("fewer than {LEAST_CALLS} calls"));
    never.chain(few).collect()
}

fn usage(wrong: &str) -> ! {
    let parts: Vec<&str> = PARTS.iter().map(|part| part.name).collect();
    println!("{wrong}: run [TIMES [SEED]], run again PART SEED (parts: {}), run record DIR, run draw DIR", parts.join(", "));
    std::process::exit(2)
}

fn run(times: Times, base: u64) {
    let mut counts = Counts::new();
    PARTS.iter().for_each(|part| part.run(base, times, &mut counts));
    counts.print();
    let mut unseen = counts.unseen();
    unseen.extend(print_calls());
    if !unseen.is_empty() {
        println!("UNSEEN: {}", unseen.join("; "));
        std::process::exit(1);
    }
    println!("compare: no difference");
}

fn again(part: &str, seed: u64) {
    let part = PARTS.iter().find(|each| each.name == part).unwrap_or_else(|| usage("no such part"));
    let mut counts = Counts::new();
    (part.again)(seed, &mut counts);
    counts.print();
    print_calls();
    println!("compare: no difference in {} {seed}", part.name);
}

fn main() {
    let words: Vec<String> = std::env::args().skip(1).collect();
    let number = |at: usize, usual: u64| words.get(at).map_or(usual, |word| word.parse().unwrap_or_else(|_| usage("not a number")));
    cases::tell_failures();
    match words.first().map(String::as_str) {
        Some("bench") => {
            bench::sends();
            bench_takes::takes();
        }
        Some("again") => again(words.get(1).map_or("", String::as_str), number(2, 0)),
        Some(times) => run(Times::of(times).unwrap_or_else(|| usage("not a length")), number(1, SEED)),
        None => run(Times::USUAL, SEED),
    }
}
