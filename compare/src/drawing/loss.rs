//! The session on paper with packet 2 lost: what the stage makes of it, with markers and without.

use super::both_ends::{Booth, Sent, Stage, Taken, What};
use super::sheet::Sheet;
use super::strip::{Strip, HIGH};
use super::track::{rounds, Track};

const LOST: u8 = 2;
/// Room for the whole session on each line.
const SIZE: u32 = 2500;

pub fn drawn() -> Sheet {
    let booth = Booth::session();
    assert_eq!(packet(&booth, LOST).line, 0, "the line that is drawn as it was sent, too");
    let (taken, unmarked) = (takes(&booth, true), takes(&booth, false));
    let mut sheet = Sheet::new(&format!("The session with packet {LOST} lost"), &described(&booth, &taken, &unmarked), 604.0);
    let sent = Track::new(&booth, 0, 100.0, 0.056);
    let counted = [Track::new(&booth, 0, 206.0, 0.056), Track::new(&booth, 1, 332.0, 0.056)];
    sent.pipe(&mut sheet, "sent");
    counted[0].pipe(&mut sheet, "at the stage");
    counted[1].pipe(&mut sheet, "at both ends");
    rounds(&mut sheet, 68.0, counted[1].bottom() + 8.0);
    as_sent(&mut sheet, &booth, &sent);
    for one in taken.iter().filter(|one| early(&booth, one) > 0) {
        shift(&mut sheet, &booth, one, &sent, &counted[0]);
    }
    // the flags last, over the edges of the packets behind them
    let (packets, markers): (Vec<&Taken>, Vec<&Taken>) = taken.iter().partition(|one| matches!(one.what, What::Packet(..)));
    for one in packets.into_iter().chain(markers) {
        take(&mut sheet, &booth, one, &counted[one.line]);
    }
    with_markers(&mut sheet, &booth, &taken);
    without(&mut sheet, &booth, &unmarked);
    sheet
}

/// The line that loses a packet, as the booth sent on it.
fn as_sent(sheet: &mut Sheet, booth: &Booth, track: &Track) {
    for packet in booth.packets().filter(|packet| packet.line == 0) {
        let length = packet.bytes.len() as u64;
        if packet.number == LOST {
            track.block(sheet, "lost", packet.at, length);
            track.label(sheet, "off", packet.number, packet.at, length);
        } else {
            track.packet(sheet, packet.number, packet.at, length);
        }
    }
}

/// What the stage takes when all has arrived but the lost packet, and the markers only where they are wanted.
fn takes(booth: &Booth, marked: bool) -> Vec<Taken> {
    let mut stage = Stage::open(&booth.record, SIZE);
    for sent in booth.sent.iter().filter(|sent| sent.number != LOST && (marked || !sent.is_marker())) {
        stage.arrive(sent);
    }
    stage.takes()
}

/// The picture in words.
fn described(booth: &Booth, taken: &[Taken], unmarked: &[Taken]) -> String {
    let told = |one: &Taken| match one.what {
        What::Packet(number, _) if early(booth, one) > 0 => format!("packet {number}, taken to lie {} bytes too early", early(booth, one)),
        What::Packet(number, _) => format!("packet {number}"),
        What::Missing(missing) => format!("line {}'s marker, which says that {missing} bytes are missing", one.line),
        What::Waiting => format!("waiting on line {}", one.line),
    };
    let [marked, unmarked] = [taken, unmarked].map(|all| all.iter().map(told).collect::<Vec<String>>().join("; "));
    format!(
        "Line 0 as it was sent and as the stage counts it, line 1, which loses nothing, and the order in which packets are handed out. \
With the markers the stage takes: {marked}. Without: {unmarked}."
    )
}

fn packet(booth: &Booth, number: u8) -> &Sent {
    booth.packets().find(|packet| packet.number == number).expect("it was sent")
}

/// How far ahead of its place a packet was taken to lie.
fn early(booth: &Booth, taken: &Taken) -> u64 {
    match taken.what {
        What::Packet(number, _) => packet(booth, number).at - taken.at,
        _ => 0,
    }
}

/// From where a packet was sent to where the stage takes it to lie.
fn shift(sheet: &mut Sheet, booth: &Booth, taken: &Taken, sent: &Track, counted: &Track) {
    if let What::Packet(number, length) = taken.what {
        let (from, top, bottom) = (packet(booth, number).at, sent.bottom(), counted.top);
        let above = format!("M{:.1} {top:.1}H{:.1}", sent.x(from), sent.x(from + length));
        let below = format!("L{:.1} {bottom:.1}H{:.1}z", counted.x(taken.at + length), counted.x(taken.at));
        sheet.path("gap", &(above + &below));
    }
}

/// What was taken, where the stage took it to lie.
fn take(sheet: &mut Sheet, booth: &Booth, taken: &Taken, counted: &Track) {
    match taken.what {
        What::Packet(number, length) => {
            counted.packet(sheet, number, taken.at, length);
            let early = early(booth, taken);
            assert!(early == 0 || taken.line == 0, "line 1 loses nothing");
            if early > 0 {
                sheet.text("off middle", counted.x(taken.at + length / 2), counted.bottom() + 21.0, &format!("{early} too early"));
            }
        }
        What::Missing(missing) => {
            if missing > 0 {
                counted.block(sheet, "gap", taken.at, missing);
                sheet.text("off middle", counted.x(taken.at + missing / 2), counted.base(), &format!("{missing} missing"));
            }
            counted.marker(sheet, taken.at + missing, &format!("marker: {missing} missing"));
        }
        What::Waiting => {}
    }
}

/// The order with the markers: where line 0 is off, and from where every line has yielded its marker.
fn with_markers(sheet: &mut Sheet, booth: &Booth, taken: &[Taken]) {
    let strip = Strip::new(sheet, 406.0, "handed out");
    for (place, one) in taken.iter().enumerate() {
        match one.what {
            What::Packet(number, _) => strip.packet(sheet, place, one.line, number),
            What::Missing(_) => strip.marker(sheet, place, one.line),
            What::Waiting => {}
        }
    }
    let markers: Vec<usize> = (0..taken.len()).filter(|place| matches!(taken[*place].what, What::Missing(_))).collect();
    let y = strip.top + HIGH + 12.0;
    let off = taken.iter().position(|one| early(booth, one) > 0).expect("a packet behind the loss");
    let (from, to) = strip.reach(off, markers[0]);
    sheet.span("off", from, to, y);
    sheet.text("off middle", (from + to) / 2.0, y + 22.0, &format!("line {} is off", taken[off].line));
    let (from, to) = strip.reach(markers[markers.len() - 1], taken.len() - 2);
    sheet.span("back", from, to, y);
    sheet.text("back middle", (from + to) / 2.0, y + 22.0, "order is back");
}

/// The order without: which packets come out ahead of lower numbers, and which stay.
fn without(sheet: &mut Sheet, booth: &Booth, taken: &[Taken]) {
    let strip = Strip::new(sheet, 516.0, "no markers");
    let out: Vec<u8> = taken.iter().filter_map(|one| if let What::Packet(number, _) = one.what { Some(number) } else { None }).collect();
    let y = strip.top + HIGH + 20.0;
    for (place, number) in out.iter().enumerate() {
        strip.packet(sheet, place, taken[place].line, *number);
        let later: Vec<String> = out[place..].iter().filter(|later| *later < number).map(u8::to_string).collect();
        if !later.is_empty() {
            sheet.text("off middle", strip.middle(place), y, &format!("before {}", later.join(" and ")));
        }
    }
    let waiting = &taken[out.len()];
    sheet.text("", strip.reach(out.len(), out.len()).0, strip.top + 24.0, &format!("waits on line {}", waiting.line));
    for (place, held) in booth.packets().filter(|held| held.number != LOST && !out.contains(&held.number)).enumerate() {
        let place = out.len() + 2 + place;
        strip.chip(sheet, place, "lost", "off", &held.number.to_string());
        sheet.text("off middle", strip.middle(place), y, "stays");
    }
}
