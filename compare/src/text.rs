//! The session as text, once more from the specification: what `stripes` must print for any bytes on its input.

use crate::answers::went;
use crate::paper::{written, Sender};

const HEADER: &str = "no len ch round before due\n";

/// Numbers of 1 to 10 digits, one space apart.
fn numbers(line: &[u8]) -> Option<Vec<u64>> {
    line.split(|byte| *byte == b' ')
        .map(|field| {
            let digits = (1..=10).contains(&field.len()) && field.iter().all(u8::is_ascii_digit);
            digits.then(|| field.iter().fold(0, |value, digit| value * 10 + u64::from(digit - b'0')))
        })
        .collect()
}

/// The lines of a text; the last may lack its line feed, and no text is one blank line.
fn lines(text: &[u8]) -> Vec<&[u8]> {
    let mut all: Vec<&[u8]> = text.split(|byte| *byte == b'\n').collect();
    if all.len() > 1 && all[all.len() - 1].is_empty() {
        all.pop();
    }
    all
}

/// What a text prints.
pub fn table(text: &[u8]) -> String {
    let all = lines(text);
    let plan = numbers(all[0]).map(|plan| plan.iter().flat_map(|number| written(u128::from(*number))).collect::<Vec<u8>>());
    let (number, mut sender) = plan.map_or((1, Sender::default()), |record| Sender::open(&record));
    if number != 0 {
        return format!("refused {number} 1\n");
    }
    let mut printed = HEADER.to_string();
    for (at, line) in all[1..].iter().enumerate() {
        let length = match numbers(line).as_deref() {
            Some([length]) => *length,
            _ => return printed + &format!("refused 1 {}\n", at + 2),
        };
        let before = sender;
        let (line, due) = match went(sender.send(length as usize)) {
            Ok((line, due)) => (line as usize, if due { 'M' } else { '-' }),
            Err(number) => return printed + &format!("refused {number} {}\n", at + 2),
        };
        printed += &format!("{} {length} {line} {} {} {due}\n", at + 1, before.rounds[line], before.counters[line]);
    }
    printed
}
