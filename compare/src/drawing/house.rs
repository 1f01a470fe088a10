//! The crates by floors, each above those it names. Floors and sides are read off crates.txt and the crates' own code: which end a crate belongs to, whether
//! it has functions, and whether C or a program starts there. A crate that has no place by these ends the drawing.

use super::sheet::Sheet;
use std::collections::{BTreeMap, BTreeSet};

const CRATES: &str = concat!(env!("CARGO_MANIFEST_DIR"), "/../crates");
/// What each end is and does, booth and stage.
const ENDS: [&str; 2] = ["sending", "receiving"];

#[derive(Clone, Copy, PartialEq, Eq, PartialOrd, Ord)]
enum Floor {
    Ground,
    Positions,
    Definitions,
    Code,
    Seen,
}

/// From the top, with their names.
const FLOORS: [(Floor, &[&str]); 5] = [
    (Floor::Seen, &["what C and", "programs see"]),
    (Floor::Code, &["code, and", "theorems of", "both ends"]),
    (Floor::Definitions, &["definitions"]),
    (Floor::Positions, &["positions"]),
    (Floor::Ground, &["numbers", "and records"]),
];

#[derive(Clone, Copy, PartialEq, Eq)]
enum Side {
    Booth,
    Both,
    Stage,
}

const SIDES: [(Side, &str); 3] = [(Side::Booth, "booth"), (Side::Both, "both ends"), (Side::Stage, "stage")];

struct Crate {
    name: String,
    /// All that it stands on.
    below: BTreeSet<String>,
    has_functions: bool,
    /// C calls it, or it is a program.
    is_seen: bool,
}

impl Crate {
    fn stands_on(&self, name: &str) -> bool {
        self.below.contains(name)
    }
}

struct House {
    crates: Vec<Crate>,
}

impl House {
    /// From crates.txt, which names each crate behind those it stands on, and the folders, which must be the same crates.
    fn read() -> std::io::Result<House> {
        let (mut house, folders) = (House { crates: Vec::new() }, names_in(CRATES)?);
        for line in std::fs::read_to_string(format!("{CRATES}.txt"))?.lines().filter(|line| !line.starts_with('#')) {
            let (name, named) = line.split_once(':').expect("a name, a colon and names");
            // What is built of the crate may stand behind its name: a static library.
            let name = name.split_whitespace().next().expect("a name");
            let mut below = BTreeSet::new();
            // the others are libraries of the toolchain
            for one in named.split_whitespace().filter(|one| folders.contains(*one)) {
                let one = house.find(one).expect("it is named before");
                below.insert(one.name.clone());
                below.extend(one.below.iter().cloned());
            }
            let code = code_of(name)?;
            let is_seen = code.contains_key("main.rt") || code.values().any(|text| text.contains("extern \"C\" fn "));
            let has_functions = is_seen || code.values().any(|text| text.contains("pub fn "));
            house.crates.push(Crate { name: name.to_string(), below, has_functions, is_seen });
        }
        let named: BTreeSet<String> = house.crates.iter().map(|one| one.name.clone()).collect();
        assert_eq!(named, folders, "crates.txt and the folders");
        Ok(house)
    }

    fn find(&self, name: &str) -> Option<&Crate> {
        self.crates.iter().find(|one| one.name == name)
    }

    /// The end that a crate has to do with alone, as that end's definitions, above them or below.
    fn side(&self, one: &Crate) -> Side {
        let [booth, stage] = ENDS.map(|end| one.name == end || one.stands_on(end) || self.find(end).expect("an end").stands_on(&one.name));
        match (booth, stage) {
            (true, false) => Side::Booth,
            (false, true) => Side::Stage,
            _ => Side::Both,
        }
    }

    fn floor(&self, one: &Crate) -> Floor {
        let of_both = self.side(one) == Side::Both;
        if one.is_seen {
            Floor::Seen
        } else if ENDS.iter().any(|end| one.stands_on(end)) {
            assert!(one.has_functions != of_both, "{} has no place: above an end stand the code of one and theorems of both", one.name);
            Floor::Code
        } else if !of_both {
            Floor::Definitions
        } else if one.has_functions {
            Floor::Ground
        } else {
            Floor::Positions
        }
    }

    /// How high a crate stands on its floor: one above the highest that it stands on there. Nothing that it stands on is on a higher floor.
    fn row(&self, one: &Crate) -> usize {
        let below = one.below.iter().filter_map(|name| self.find(name));
        let rows = below.filter_map(|other| {
            assert!(self.floor(other) <= self.floor(one), "{} stands on {}, which is on a higher floor", one.name, other.name);
            (self.floor(other) == self.floor(one)).then(|| self.row(other) + 1)
        });
        rows.max().unwrap_or(0)
    }

    fn on(&self, floor: Floor) -> Vec<&Crate> {
        self.crates.iter().filter(|one| self.floor(one) == floor).collect()
    }

    /// The crates of a side in a row of a floor. The two lowest floors are of both ends alone, and have room to the sides.
    fn at(&self, floor: Floor, side: Side, row: usize) -> Vec<&Crate> {
        let mut crates = self.on(floor);
        crates.retain(|one| self.side(one) == side && self.row(one) == row);
        assert!(crates.len() <= if floor < Floor::Definitions { 6 } else { 2 }, "{} has no room", crates[crates.len() - 1].name);
        crates
    }

    fn rows(&self, floor: Floor) -> usize {
        1 + self.on(floor).iter().map(|one| self.row(one)).max().expect("a crate on every floor")
    }

    fn high(&self, floor: Floor) -> f64 {
        self.rows(floor) as f64 * (BOX.1 + GAP) + 2.0 * GAP
    }
}

fn names_in(folder: &str) -> std::io::Result<BTreeSet<String>> {
    std::fs::read_dir(folder)?.map(|entry| Ok(entry?.file_name().to_string_lossy().into_owned())).collect()
}

/// A crate's files of code, by name.
fn code_of(name: &str) -> std::io::Result<BTreeMap<String, String>> {
    let folder = format!("{CRATES}/{name}/src");
    names_in(&folder)?.into_iter().map(|file| Ok((file.clone(), std::fs::read_to_string(format!("{folder}/{file}"))?))).collect()
}

const TOP: f64 = 90.0;
const LEFT: f64 = 152.0;
const COLUMN: f64 = 241.0;
const BOX: (f64, f64) = (108.0, 32.0);
const GAP: f64 = 8.0;

pub fn drawn() -> std::io::Result<Sheet> {
    let house = House::read()?;
    let high: f64 = FLOORS.iter().map(|(floor, _)| house.high(*floor) + GAP).sum();
    let mut sheet = Sheet::new("The house", &described(&house), TOP + high + 58.0);
    sheet.text("soft end", 872.0, 42.0, "each crate stands above those it names");
    for (at, (_, words)) in SIDES.iter().enumerate() {
        sheet.text("soft middle", LEFT + COLUMN * (at as f64 + 0.5), 78.0, words);
    }
    let mut top = TOP;
    for (floor, words) in FLOORS {
        storey(&mut sheet, &house, floor, words, top);
        top += house.high(floor) + GAP;
    }
    legend(&mut sheet, top + 10.0);
    Ok(sheet)
}

/// The picture in words.
fn described(house: &House) -> String {
    let told = |(floor, words): &(Floor, &[&str])| {
        let names: Vec<&str> = house.on(*floor).iter().map(|one| one.name.as_str()).collect();
        format!("{}: {}", words.join(" "), names.join(", "))
    };
    let floors: Vec<String> = FLOORS.iter().map(told).collect();
    let sides = "the booth's on the left, the stage's on the right, those of both ends between";
    format!("The crates as boxes on floors, each above those it names, {sides}. From the top: {}.", floors.join("; "))
}

/// A floor with its crates.
fn storey(sheet: &mut Sheet, house: &House, floor: Floor, words: &[&str], top: f64) {
    let (rows, high) = (house.rows(floor), house.high(floor));
    sheet.block("pipe", LEFT, top, 3.0 * COLUMN, high);
    for (at, line) in words.iter().enumerate() {
        let middle = top + high / 2.0 + 6.0;
        sheet.text("", 28.0, middle + 21.0 * (at as f64 - (words.len() - 1) as f64 / 2.0), line);
    }
    for (column, (side, _)) in SIDES.iter().enumerate() {
        for row in 0..rows {
            let y = top + high - 1.5 * GAP - BOX.1 - row as f64 * (BOX.1 + GAP);
            beside(sheet, &house.at(floor, *side, row), LEFT + COLUMN * (column as f64 + 0.5), y);
        }
    }
}

/// Crates beside each other, around a place.
fn beside(sheet: &mut Sheet, crates: &[&Crate], middle: f64, y: f64) {
    for (place, one) in crates.iter().enumerate() {
        let x = middle + (place as f64 - (crates.len() - 1) as f64 / 2.0) * (BOX.0 + GAP);
        boxed(sheet, x, y, &one.name, one.has_functions);
    }
}

fn boxed(sheet: &mut Sheet, middle: f64, y: f64, words: &str, has_functions: bool) {
    let (class, text) = if has_functions { ("zero", "on box") } else { ("bare", "box") };
    sheet.block(class, middle - BOX.0 / 2.0, y, BOX.0, BOX.1);
    sheet.text(text, middle, y + 22.0, words);
}

fn legend(sheet: &mut Sheet, y: f64) {
    for (x, class, words) in [(LEFT, "zero", "with functions"), (LEFT + COLUMN, "bare", "definitions and theorems alone")] {
        sheet.block(class, x, y, 28.0, 20.0);
        sheet.text("soft", x + 38.0, y + 16.0, words);
    }
}
