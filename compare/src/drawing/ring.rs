//! One line's ring, brought to where an item lies across its end: by arrivals and takes of the session on paper at a stage with small rings.

use super::both_ends::{Booth, Sent, Stage, What};
use super::sheet::Sheet;
use std::f64::consts::TAU;

const LINE: usize = 0;
const SIZE: u32 = 1500;
/// Packets handed out before this one arrives, which is the one across the end.
const TAKEN: u8 = 2;
const ACROSS: u8 = 6;

/// Middle and radius of the circle.
const X: f64 = 248.0;
const Y: f64 = 262.0;
const RADIUS: f64 = 142.0;
/// Half of the ring's thickness, as the class `arc` has it.
const HALF: f64 = 28.0;

/// An item in the ring: its number (0 for a marker), where it starts, and its bytes in all.
struct Held {
    number: u8,
    from: u32,
    all: u32,
}

/// The stage when the packet has arrived that lies across the end.
fn brought(booth: &Booth) -> Stage {
    let mut stage = Stage::open(&booth.record, SIZE);
    for sent in booth.sent.iter().filter(|sent| sent.line == LINE && sent.number <= ACROSS) {
        if sent.number == ACROSS {
            for number in 1..=TAKEN {
                assert!(matches!(stage.take().what, What::Packet(taken, _) if taken == number), "packet {number} is handed out");
            }
        }
        stage.arrive(sent);
    }
    stage
}

/// What the ring holds, from its head on, as its own bytes say.
fn held(stage: &Stage) -> Vec<Held> {
    let (mut items, mut rest) = (Vec::new(), stage.receiver);
    while rest.rings.used[LINE] > 0 {
        let (_, all) = rest.head_item(LINE, &stage.store).expect("an item");
        let [kind, number] = [0, 3].map(|behind| stage.store[rest.place(LINE, behind)]);
        let from = rest.rings.heads[LINE];
        items.push(Held { number: if kind == 1 { 0 } else { number }, from, all });
        rest.rings.heads[LINE] = (from + all) % SIZE;
        rest.rings.used[LINE] -= all;
    }
    items
}

pub fn drawn() -> Sheet {
    let booth = Booth::session();
    let stage = brought(&booth);
    let items = held(&stage);
    let mut sheet = Sheet::new("A line's ring, with an item across its end", &described(&stage, &items), 476.0);
    circle(&mut sheet, &stage, &items);
    places(&mut sheet, &stage);
    let across = items.last().expect("it holds items");
    assert!(across.number == ACROSS && across.from + across.all > SIZE, "it lies across the end");
    unrolled(&mut sheet, &stage, across);
    figures(&mut sheet, &booth, &stage);
    sheet
}

/// The picture in words.
fn described(stage: &Stage, items: &[Held]) -> String {
    let (head, used) = (stage.receiver.rings.heads[LINE], stage.receiver.rings.used[LINE]);
    let told = |item: &Held| {
        let name = if item.number == 0 { "a marker".to_string() } else { format!("packet {}", item.number) };
        format!("{name} with {} bytes from place {}", item.all, item.from)
    };
    let all: Vec<String> = items.iter().map(told).collect();
    format!(
        "The ring of line {LINE} as a circle of {SIZE} bytes, clockwise from the top: head {head}, used {used}. From the head on it holds {}, which runs over \
the ring's end to its beginning. Beside it that packet as its bytes lie in the ring: a kind byte, two bytes of length, low first, and the packet's bytes, \
some before the end and the rest from place 0 on.",
        all.join("; ")
    )
}

/// A place of the ring on the sheet, so far from its middle; 0 is at the top.
fn at(place: f64, radius: f64) -> (f64, f64) {
    let turn = place / f64::from(SIZE) * TAU;
    (X + radius * turn.sin(), Y - radius * turn.cos())
}

fn arc(sheet: &mut Sheet, class: &str, from: u32, all: u32) {
    let ((x, y), (to_x, to_y)) = (at(f64::from(from), RADIUS), at(f64::from(from + all), RADIUS));
    let large = u32::from(2 * all > SIZE);
    sheet.path(&format!("arc {class}"), &format!("M{x:.1} {y:.1}A{RADIUS} {RADIUS} 0 {large} 1 {to_x:.1} {to_y:.1}"));
}

fn written_in(sheet: &mut Sheet, class: &str, place: f64, words: &str) {
    let (x, y) = at(place, RADIUS);
    sheet.text(&format!("middle {class}"), x, y + 7.0, words);
}

/// The ring and what lies in it.
fn circle(sheet: &mut Sheet, stage: &Stage, items: &[Held]) {
    let (head, used) = (stage.receiver.rings.heads[LINE], stage.receiver.rings.used[LINE]);
    let (behind, free) = ((head + used) % SIZE, SIZE - used);
    arc(sheet, "pipe", behind, free);
    written_in(sheet, "soft", f64::from(behind) + f64::from(free) / 2.0, "free");
    for item in items {
        arc(sheet, if item.number == 0 { "flag" } else { "zero" }, item.from, item.all);
        if item.number > 0 {
            let end = (item.from + item.all).min(SIZE);
            written_in(sheet, "number on", f64::from(item.from + end) / 2.0, &item.number.to_string());
        }
        if item.from + item.all > SIZE {
            written_in(sheet, "number on", f64::from(item.from + item.all - SIZE) / 2.0, &item.number.to_string());
        }
    }
    sheet.line("cut", at(0.0, RADIUS - HALF), at(0.0, RADIUS + HALF));
    let marker = items.iter().find(|item| item.number == 0).expect("a marker");
    let (x, y) = at(f64::from(marker.from), RADIUS + 38.0);
    sheet.text("flag end", x, y, "marker");
}

/// Head, used and free, and where the next item goes.
fn places(sheet: &mut Sheet, stage: &Stage) {
    let (head, used) = (stage.receiver.rings.heads[LINE], stage.receiver.rings.used[LINE]);
    let behind = (head + used) % SIZE;
    let end = format!("0, and the end at {SIZE}");
    for (place, class, words) in [(0, "middle", end), (head, "end", format!("head {head}")), (behind, "", format!("next {behind}"))] {
        sheet.line("rule", at(f64::from(place), RADIUS + HALF), at(f64::from(place), RADIUS + HALF + 12.0));
        let (x, y) = at(f64::from(place), RADIUS + HALF + 22.0);
        sheet.text(class, x, y + 5.0, &words);
    }
    sheet.text("middle number", X, Y - 30.0, &format!("line {LINE}"));
    sheet.text("middle", X, Y - 3.0, &format!("used {used}"));
    sheet.text("middle", X, Y + 21.0, &format!("free {}", SIZE - used));
    sheet.text("middle soft", X, Y + 45.0, "clockwise");
}

/// The item across the end as a row of its bytes, with the places where they lie.
fn unrolled(sheet: &mut Sheet, stage: &Stage, item: &Held) {
    const LEFT: f64 = 500.0;
    const TOP: f64 = 150.0;
    const CELL: f64 = 38.0;
    const WIDE: f64 = 256.0;
    let byte = |behind: u32| stage.store[LINE * SIZE as usize + ((item.from + behind) % SIZE) as usize];
    sheet.text("", LEFT, TOP - 46.0, &format!("packet {} in the ring: {} bytes", item.number, item.all));
    for behind in 0..3 {
        let x = LEFT + CELL * f64::from(behind);
        sheet.block("bare", x, TOP, CELL, 50.0);
        sheet.text("byte middle", x + CELL / 2.0, TOP + 31.0, &format!("{:02X}", byte(behind)));
    }
    sheet.text("soft middle", LEFT + CELL / 2.0, TOP - 12.0, "kind");
    sheet.text("soft middle", LEFT + CELL * 2.0, TOP - 12.0, "length");
    let length = u32::from(byte(1)) + 256 * u32::from(byte(2));
    let before = SIZE - item.from - 3;
    let (from, cut) = (LEFT + 3.0 * CELL, LEFT + 3.0 * CELL + WIDE * f64::from(before) / f64::from(length));
    sheet.block("zero", from, TOP, cut - from, 50.0);
    sheet.block("zero", cut, TOP, from + WIDE - cut, 50.0);
    sheet.text("soft middle", from + WIDE / 2.0, TOP - 12.0, &format!("its {length} bytes"));
    sheet.text("on middle", (from + cut) / 2.0, TOP + 31.0, &before.to_string());
    sheet.text("on middle", (cut + from + WIDE) / 2.0, TOP + 31.0, &(length - before).to_string());
    sheet.line("rule", (cut, TOP - 6.0), (cut, TOP + 82.0));
    sheet.text("soft", LEFT, TOP + 73.0, &format!("from {}", item.from));
    sheet.text("soft end", cut - 8.0, TOP + 73.0, &format!("to {}", SIZE - 1));
    sheet.text("soft", cut + 8.0, TOP + 73.0, &format!("0 to {}", item.all - (SIZE - item.from) - 1));
}

/// Where the next item goes, whether there is room for it, and how the ring came to be as it is.
fn figures(sheet: &mut Sheet, booth: &Booth, stage: &Stage) {
    let (head, used) = (stage.receiver.rings.heads[LINE], stage.receiver.rings.used[LINE]);
    let next = booth.packets().find(|packet| packet.number > ACROSS && packet.line == LINE).expect("one comes behind");
    let (mut receiver, mut store) = (stage.receiver, stage.store.clone());
    let fits = receiver.data(LINE as u32, &next.bytes, &mut store) == 0;
    let name = |sent: &Sent| if sent.is_marker() { "a marker".to_string() } else { sent.number.to_string() };
    let before = booth.sent.iter().filter(|sent| sent.line == LINE && sent.number < ACROSS);
    for (row, words) in [
        format!("next = {head} + {used} \u{2212} {SIZE} = {}", head + used - SIZE),
        format!("free = {SIZE} \u{2212} {used} = {}", SIZE - used),
        format!("packet {} needs {}: {}", next.number, 3 + next.bytes.len(), if fits { "it fits" } else { "no room" }),
        String::new(),
        format!("arrived: {}", before.map(name).collect::<Vec<String>>().join(", ")),
        format!("then taken: {}", (1..=TAKEN).map(|number| number.to_string()).collect::<Vec<String>>().join(", ")),
        format!("then arrived: {ACROSS}"),
    ]
    .iter()
    .enumerate()
    {
        sheet.text(if row < 3 { "" } else { "soft" }, 500.0, 278.0 + 26.0 * row as f64, words);
    }
}
