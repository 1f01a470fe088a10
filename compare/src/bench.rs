//! Times the proved send against the plain one of the second program: the same lengths, the same machine, both optimised, turn about in one
//! run. Prints the head of the table and its rows for sends; bench_takes.rs adds the rows for takes.

use crate::archive;
use crate::chance::Chance;
use crate::paper::{written, Sender};
use std::hint::black_box;
use std::sync::OnceLock;

const PACKETS: usize = 200_000;

/// How often each side is timed; each turn gives one time of each.
pub const TURNS: usize = 51;

pub const LINES: [usize; 2] = [2, 16];

/// The packets' lengths in bytes, both ends included.
pub type Range = (u64, u64);
pub const RANGES: [Range; 2] = [(64, 1500), (64, 128)];

/// A plan for all of them: the largest packet 1500, quanta of 3000.
pub fn plan(lines: usize, interval: usize) -> Vec<u8> {
    let quanta = std::iter::repeat(3000).take(lines);
    [lines, 1500, interval].into_iter().chain(quanta).flat_map(|number| written(number as u128)).collect()
}

#[repr(C)]
#[derive(Default)]
struct Clock {
    seconds: i64,
    nanoseconds: i64,
}

extern "C" {
    fn clock_gettime(which: i32, clock: *mut Clock) -> i32;
}

/// The processor time of this thread, in nanoseconds. On a busy machine the time on the wall is longer, and the more so the longer a side takes.
fn now() -> f64 {
    const OF_THE_THREAD: i32 = 3;
    let mut clock = Clock::default();
    assert_eq!(unsafe { clock_gettime(OF_THE_THREAD, &mut clock) }, 0);
    clock.seconds as f64 * 1e9 + clock.nanoseconds as f64
}

/// What a look at the clock itself takes.
fn look() -> f64 {
    static LOOK: OnceLock<f64> = OnceLock::new();
    *LOOK.get_or_init(|| Times::new((0..1_001).map(|_| -now() + now()).collect()).median())
}

/// The nanoseconds that the work takes.
pub fn timed(work: impl FnOnce()) -> f64 {
    let look = look();
    let start = now();
    work();
    now() - start - look
}

/// A side's nanoseconds a call, one time for each turn, lowest first.
struct Times(Vec<f64>);

impl Times {
    fn new(mut times: Vec<f64>) -> Times {
        times.sort_by(f64::total_cmp);
        Times(times)
    }

    fn percentile(&self, percent: usize) -> f64 {
        self.0[(self.0.len() - 1) * percent / 100]
    }

    fn median(&self) -> f64 {
        self.percentile(50)
    }

    /// The machine's noise.
    fn spread(&self) -> String {
        format!("{:.1} to {:.1}", self.percentile(10), self.percentile(90))
    }
}

fn print(call: &str, lines: &str, bytes: &str, rattle: [&str; 2], rust: [&str; 2], ratio: &str) {
    println!("{call:<16} {lines:>5} {bytes:>12}  {:>8} {:>18}  {:>8} {:>18}  {ratio:>5}", rattle[0], rattle[1], rust[0], rust[1]);
}

/// One row of the table, from the times of all turns of both sides.
pub fn row(call: &str, lines: usize, (low, high): Range, rattle: Vec<f64>, rust: Vec<f64>) {
    let (rattle, rust) = (Times::new(rattle), Times::new(rust));
    let shown = |times: &Times| [format!("{:.1}", times.median()), times.spread()];
    let ([proved, noise], [plain, other]) = (shown(&rattle), shown(&rust));
    let ratio = format!("{:.2}", rattle.median() / rust.median());
    print(call, &lines.to_string(), &format!("{low} to {high}"), [&proved, &noise], [&plain, &other], &ratio);
}

fn head() {
    let processors = std::thread::available_parallelism().map_or(0, |count| count.get());
    println!("{processors} processors, {TURNS} turns; nanoseconds of processor time a packet sent or item taken: medians and spreads");
    print("call", "lines", "packet bytes", ["Rattle", "10th to 90th"], ["Rust", "10th to 90th"], "ratio");
}

/// Nanoseconds a packet, of one run through the lengths.
fn time(lengths: &[usize], sender: &Sender, send: impl Fn(&mut Sender, usize) -> u32) -> f64 {
    let mut state = *sender;
    let mut answers = 0u64;
    let spent = timed(|| answers = black_box(lengths).iter().map(|length| u64::from(send(&mut state, *length))).sum());
    black_box(answers);
    spent / lengths.len() as f64
}

fn compare(lines: usize, range: Range) {
    let (number, sender) = Sender::open(&plan(lines, 1));
    assert_eq!(number, 0);
    let chance = &mut Chance::new(7);
    let lengths: Vec<usize> = (0..PACKETS).map(|_| chance.between(range.0, range.1) as usize).collect();
    let (mut rattle, mut rust) = (Vec::new(), Vec::new());
    for _ in 0..TURNS {
        rattle.push(time(&lengths, &sender, archive::send));
        rust.push(time(&lengths, &sender, |state, length| black_box(state).send(length)));
    }
    row("send", lines, range, rattle, rust);
}

pub fn sends() {
    head();
    for lines in LINES {
        RANGES.into_iter().for_each(|range| compare(lines, range));
    }
}
