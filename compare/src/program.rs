//! Runs the program `stripes` on texts by chance, valid and damaged, its input cut into pieces by chance, and compares what it prints.

use crate::cases::{begin, differs};
use crate::chance::Chance;
use crate::counts::Counts;
use crate::text;
use std::io::{Read, Write};
use std::process::{Command, Stdio};

const PROGRAM: &str = concat!(env!("CARGO_MANIFEST_DIR"), "/../crates/stripes/out/stripes");

/// The program by itself, or where STRIPES_RUN names an emulator for its processor, as qemu-x86_64, by that.
fn command() -> Command {
    let emulator = std::env::var("STRIPES_RUN").unwrap_or_default();
    let mut words = emulator.split_whitespace().chain([PROGRAM]);
    let mut command = Command::new(words.next().expect("the program at least"));
    command.args(words);
    command
}

fn printed(input: &[u8], pieces: &[usize]) -> Vec<u8> {
    let mut child = command().stdin(Stdio::piped()).stdout(Stdio::piped()).spawn().expect("crates/stripes/out/stripes is built");
    let mut stdin = child.stdin.take().expect("piped");
    let mut stdout = child.stdout.take().expect("piped");
    let reader = std::thread::spawn(move || {
        let mut all = Vec::new();
        stdout.read_to_end(&mut all).expect("its output can be read");
        all
    });
    let mut rest = input;
    for piece in pieces {
        let (now, later) = rest.split_at((*piece).min(rest.len()));
        // A session that has ended reads no more: what is left may have nobody to take it.
        if stdin.write_all(now).and_then(|()| stdin.flush()).is_err() {
            break;
        }
        rest = later;
    }
    let _ = stdin.write_all(rest);
    drop(stdin);
    child.wait().expect("it ends");
    reader.join().expect("its output was read")
}

/// A text that is mostly good.
fn session(chance: &mut Chance) -> Vec<u8> {
    let lines = if chance.one_in(20) { chance.near(1, 16) } else { chance.between(1, 16) };
    let max = if chance.one_in(20) { chance.near(64, 9000) } else { chance.between(64, 1500) };
    let interval = if chance.one_in(20) { chance.near(1, 65535) } else { chance.between(1, 4) };
    let mut plan = vec![lines, max, interval];
    plan.extend((0..lines.min(20)).map(|_| if chance.one_in(40) { chance.near(max, 1_048_576) } else { chance.between(max, 3 * max) }));
    let mut text = plan.iter().map(u64::to_string).collect::<Vec<_>>().join(" ").into_bytes();
    for _ in 0..chance.between(0, 400) {
        text.push(b'\n');
        if chance.one_in(30) {
            text.push(b'0');
        }
        let length = if chance.one_in(200) { chance.near(1, max) } else { chance.between(1, max.max(1)) };
        text.extend(length.to_string().bytes());
    }
    if !chance.one_in(3) {
        text.push(b'\n');
    }
    text
}

fn damaged(mut text: Vec<u8>, chance: &mut Chance) -> Vec<u8> {
    const ODD: [u8; 10] = [b'\r', b'\n', b' ', b'\t', b'-', b'9', b'a', 0, 0x80, 0xFF];
    let at = chance.between(0, text.len() as u64) as usize;
    match chance.between(0, 3) {
        0 => text.truncate(at),
        1 => text.insert(at, ODD[chance.between(0, 9) as usize]),
        2 => text.splice(at..at, std::iter::repeat(b'7').take(chance.between(5, 300) as usize)).for_each(drop),
        _ if at < text.len() => text[at] = ODD[chance.between(0, 9) as usize],
        _ => {}
    }
    text
}

pub fn texts(seed: u64, counts: &mut Counts) {
    let chance = &mut begin("texts", seed);
    let whole = chance.one_in(2);
    let text = session(chance);
    let input = if whole { text } else { damaged(text, chance) };
    let pieces: Vec<usize> = (0..chance.between(0, 6)).map(|_| chance.between(1, 200) as usize).collect();
    let (proved, second) = (printed(&input, &pieces), text::table(&input));
    if proved != second.as_bytes() {
        let (input, proved) = (String::from_utf8_lossy(&input), String::from_utf8_lossy(&proved));
        differs("stripes", format!("on {input:?}:\n{proved}and\n{second}"));
    }
    counts.count("texts for stripes", if whole { "whole" } else { "damaged" });
    counts.add("texts for stripes", "refused somewhere", u64::from(second.contains("refused")));
}
