//! Openings of the proved receiver, held against the second program's.

use crate::cases::begin;
use crate::counts::{number_name, Counts};
use crate::pair;
use crate::paper::Plan;
use crate::records::{damaged, noise, plan_record};

pub fn openings(seed: u64, counts: &mut Counts) {
    let chance = &mut begin("openings", seed);
    let record = match chance.between(0, 3) {
        0 => damaged(plan_record(chance), chance).0,
        1 if chance.one_in(4) => noise(chance),
        _ => plan_record(chance),
    };
    let max = Plan::read(&record).map_or(64, |plan| u64::from(plan.max));
    let (number, _) = pair::opened(&record, chance.near(max + 3, 65536) as u32);
    counts.count("receivers opened", if number == 0 { "opened" } else { number_name(number) });
}
