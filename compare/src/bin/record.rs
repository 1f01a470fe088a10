//! Makes the recording of the second program, which links no archive: `record DIR` writes what a program reads that plays it (DIR/stdin, player.rs
//! says how it is laid out) and what it must print (DIR/stdout).

#[path = "../answers.rs"]
#[allow(dead_code)]
mod answers;
#[path = "../chance.rs"]
#[allow(dead_code)]
mod chance;
#[path = "../making.rs"]
mod making;
#[path = "../paper.rs"]
#[allow(dead_code)]
mod paper;
#[path = "../player.rs"]
mod player;
#[path = "../provoking.rs"]
mod provoking;
#[path = "../stage.rs"]
mod stage;
#[path = "../taking.rs"]
#[allow(dead_code)]
mod taking;

use chance::Chance;
use making::{written, Making};
use player::{printed, unseen, Second, Step, MARKER};

/// The player reads less.
const MOST: usize = 65_535;

fn main() -> std::io::Result<()> {
    let folder = std::env::args().nth(1).expect("record DIR");
    let mut making = Making::new();
    provoking::paper(&mut making);
    let wrapped = making::sessions(&mut making, &mut Chance::new(1962));
    provoking::numbers(&mut making);
    let mut input: Vec<u8> = making.steps.iter().flat_map(written).collect();
    // the last step lacks a byte, so that it is none
    let cut = written(&Step { kind: MARKER, numbers: [0; 3], bytes: vec![0, 2, 1] });
    input.extend(&cut[..cut.len() - 1]);
    assert!(input.len() <= MOST, "{} bytes", input.len());
    let output = printed(&input, &Second);
    let unseen = unseen(&output);
    assert!(unseen.is_empty(), "the recording lacks {}", unseen.join(", "));
    std::fs::create_dir_all(&folder)?;
    std::fs::write(format!("{folder}/stdin"), &input)?;
    std::fs::write(format!("{folder}/stdout"), &output)?;
    let (bytes, lines, all) = (input.len(), output.lines().count(), making.steps.len());
    println!("record: {all} steps, {bytes} bytes, {lines} lines printed; in {wrapped} sessions by chance every ring was gone round");
    Ok(())
}
