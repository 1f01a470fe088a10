//! Plans as C holds them, in a struct: written to records, and read from records whole and damaged. Struct and output are compared whole.

use crate::answers::{done, said};
use crate::cases::{begin, differs};
use crate::chance::Chance;
use crate::counts::{number_name, Counts};
use crate::pair::longer;
use crate::paper::{self, Plan};
use crate::proved;
use crate::readings::perhaps_damaged;
use crate::records::plan_record;
use crate::sending::{count_corners, good_plan};
use std::hint::black_box;

/// Words of any size.
fn any_plan(chance: &mut Chance) -> Plan {
    let mut word = || (chance.next() >> chance.between(32, 63)) as u32;
    Plan { lines: word(), max: word(), interval: word(), quanta: [(); 16].map(|()| word()) }
}

/// A plan in range. Behind its lines stands anything, or quanta that would be in range too.
fn good_struct(chance: &mut Chance) -> Plan {
    let mut plan = Plan::read(&good_plan(chance)).expect("in range");
    let any = chance.one_in(2);
    for quantum in &mut plan.quanta[plan.lines as usize..] {
        *quantum = if any { chance.next() } else { chance.between(u64::from(plan.max), 1_048_576) } as u32;
    }
    plan
}

/// One number of a plan set to an end of its range, to one beyond, or to any; and which.
fn change_field(plan: &mut Plan, chance: &mut Chance) -> &'static str {
    let (max, at) = (plan.max, chance.between(0, u64::from(plan.lines) - 1) as usize);
    let (word, name, low, high) = match chance.between(0, 3) {
        0 => (&mut plan.lines, "lines", 1, 16),
        1 => (&mut plan.max, "max", 64, 9000),
        2 => (&mut plan.interval, "interval", 1, 65535),
        _ => (&mut plan.quanta[at], "quanta", max, 1_048_576),
    };
    *word = match chance.between(0, 4) {
        0 => low - 1,
        1 => low,
        2 => high,
        3 => high + 1,
        _ => chance.next() as u32,
    };
    name
}

/// So many bytes of output: none, about as many as the record has, or any.
fn room(record: usize, chance: &mut Chance) -> usize {
    match chance.between(0, 7) {
        0 => 0,
        1 => chance.between(0, 70) as usize,
        2 => record.saturating_sub(1),
        3 => record,
        _ => record + chance.between(0, 9) as usize,
    }
}

/// A plan written: its record, or the number. The struct and what lies behind the output must stay.
fn compare_written(plan: &Plan, before: &[u8]) -> Result<Vec<u8>, u32> {
    let (mut held, mut out) = (*plan, longer(before, 0xEE));
    let proved = proved::write_plan(&held, &mut out[..before.len()]);
    let (second, after) = paper::write_plan(plan, before);
    // what was lent to be read alone is looked at again all the same
    let held = *black_box(&mut held);
    if proved != second || out != longer(&after, 0xEE) || held != *plan {
        differs("a plan written", format!("{plan:?} into {before:02x?}: {proved} {out:02x?} {held:?} and {second} {after:02x?}"));
    }
    said(proved).map(|length| after[..length as usize].to_vec())
}

/// A record read over a struct that held anything: the number, and the plan as it is left.
fn compare_read(record: &[u8], before: Plan) -> (u32, Plan) {
    let mut plan = before;
    let proved = proved::read_plan(&mut plan, record);
    let (number, second) = paper::read_plan(record);
    if proved != done(number) || plan != second {
        differs("a plan read", format!("{record:02x?} over {before:?}: {proved} {plan:?} and {number} {second:?}"));
    }
    (number, plan)
}

/// A plan that was written reads back as it was, but for zeros behind its lines.
fn compare_back(plan: &Plan, record: &[u8], before: Plan) {
    let mut expected = *plan;
    expected.quanta[plan.lines as usize..].fill(0);
    let back = compare_read(record, before);
    if back != (0, expected) {
        differs("a plan read back", format!("{plan:?}: {record:02x?} and {back:?}"));
    }
}

/// How a plan was made up.
enum Made {
    InRange,
    /// Which number was changed.
    Changed(&'static str),
    AnyWords,
}

fn some_plan(chance: &mut Chance) -> (Plan, Made) {
    let mut plan = good_struct(chance);
    match chance.between(0, 8) {
        0..=3 => (plan, Made::InRange),
        4..=7 => {
            let field = change_field(&mut plan, chance);
            (plan, Made::Changed(field))
        }
        _ => (any_plan(chance), Made::AnyWords),
    }
}

fn count_written(plan: &Plan, made: Made, written: &Result<Vec<u8>, u32>, counts: &mut Counts) {
    let answer = written.as_ref().map_or_else(|number| number_name(*number), |_| "written");
    counts.count("plans written", answer);
    match (made, written) {
        (Made::Changed(field), Ok(_)) => counts.count("plans with one field changed, written", field),
        (Made::Changed(field), Err(1)) => counts.count("plans with one field changed, refused with 1", field),
        (Made::AnyWords, _) => counts.count("plans of any words", answer),
        _ => {}
    }
    if written.is_ok() {
        counts.line_count("plans written, by lines", plan.lines);
        count_corners("plans written, at an end of a range", plan, counts);
    }
}

/// A plan written and, where it is, read back; and the reading of another record.
pub fn plans(seed: u64, counts: &mut Counts) {
    let chance = &mut begin("structs", seed);
    let (plan, made) = some_plan(chance);
    let length = room(plan.record().len(), chance);
    let written = compare_written(&plan, &chance.bytes(length));
    count_written(&plan, made, &written, counts);
    if let Ok(record) = written {
        compare_back(&plan, &record, any_plan(chance));
        counts.count("plans read", "read back");
    }
    let whole = if chance.one_in(2) { good_plan(chance) } else { plan_record(chance) };
    let (record, what) = perhaps_damaged(whole, chance);
    let (number, _) = compare_read(&record, any_plan(chance));
    counts.count("plans read", what);
    counts.count("plans read, answers", if number == 0 { "good" } else { number_name(number) });
}
