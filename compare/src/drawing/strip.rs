//! Parcels in the order in which they are sent or handed out: a row of chips, coloured by line.

use super::sheet::Sheet;
use super::track::{CLASSES, LEFT, RIGHT};

/// From one chip to the next; ten have room.
const STEP: f64 = (RIGHT - LEFT + GAP) / 10.0;
const GAP: f64 = 8.0;
pub const HIGH: f64 = 36.0;

pub struct Strip {
    pub top: f64,
}

impl Strip {
    pub fn new(sheet: &mut Sheet, top: f64, words: &str) -> Strip {
        sheet.text("", 28.0, top + 24.0, words);
        Strip { top }
    }

    /// From where to where the chips of some places reach.
    pub fn reach(&self, first: usize, last: usize) -> (f64, f64) {
        (LEFT + STEP * first as f64, LEFT + STEP * (last + 1) as f64 - GAP)
    }

    pub fn middle(&self, place: usize) -> f64 {
        let (from, to) = self.reach(place, place);
        (from + to) / 2.0
    }

    pub fn chip(&self, sheet: &mut Sheet, place: usize, class: &str, text: &str, words: &str) {
        let (from, to) = self.reach(place, place);
        sheet.block(class, from, self.top, to - from, HIGH);
        sheet.text(&format!("number middle {text}"), self.middle(place), self.top + 25.0, words);
    }

    pub fn packet(&self, sheet: &mut Sheet, place: usize, line: usize, number: u8) {
        self.chip(sheet, place, CLASSES[line], "on", &number.to_string());
    }

    pub fn marker(&self, sheet: &mut Sheet, place: usize, line: usize) {
        self.chip(sheet, place, "flag edge", "on", &format!("M{line}"));
    }
}
