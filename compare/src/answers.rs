//! What C gets for what the second program says, and what it says for what C gets: the rule of include/starkvitne.h, and the words of booth.h and
//! stage.h. Nothing else in the second program knows how an answer is laid out.

use crate::taking::Outcome;

/// Bit 8: the answer is a refusal, and its number stands in the bits below.
const REFUSED: u32 = 256;

/// The answer that refuses by a number.
#[inline]
pub fn refusal(number: u32) -> u32 {
    REFUSED + number
}

/// The answer of a call that has nothing else to say: 0, or the refusal by a number that is not 0.
pub fn done(number: u32) -> u32 {
    if number == 0 { 0 } else { refusal(number) }
}

/// The same back: the number, or 0.
pub fn number(answer: u32) -> u32 {
    let said = said(answer);
    assert!(matches!(said, Ok(0) | Err(1..)), "{answer:#x}: 0 or a refusal");
    said.err().unwrap_or(0)
}

/// What an answer says, or the number where it is a refusal.
pub fn said(answer: impl Into<u64>) -> Result<u64, u32> {
    let answer = answer.into();
    if answer & u64::from(REFUSED) == 0 {
        return Ok(answer);
    }
    assert!(answer < u64::from(2 * REFUSED), "{answer:#x}: a refusal is its number and bit 8 alone");
    Err(answer as u32 - REFUSED)
}

/// A send: the line of the packet, and whether markers are due.
#[inline]
pub fn sent(line: u32, due: bool) -> u32 {
    line + if due { 16 } else { 0 }
}

/// The same back, or the number.
pub fn went(answer: u32) -> Result<(u32, bool), u32> {
    said(answer).map(|went| {
        assert!(went < 32, "{went:#x}: a line and 16 alone");
        (went as u32 % 16, went >= 16)
    })
}

/// A number that was read, and the place after it.
pub fn number_read(place: usize, value: u64) -> u64 {
    place as u64 + (value << 32)
}

/// The place back, or the number.
pub fn place(answer: u64) -> Result<usize, u32> {
    said(answer).map(|read| read as u32 as usize)
}

/// A marker that was read: line, round and counter.
pub fn marker_read([line, round, counter]: [u64; 3]) -> u64 {
    line + 512 * counter + (round << 32)
}

/// The kinds of words. A refusal read as a word is of none of them.
pub const DATA: u64 = 0;
const MISSING: u64 = 1;
pub const BEHIND: u64 = 2;
const WAITING: u64 = 3;

/// Why a run of takes ended where its log is full: a kind that no take's word is of.
pub const FULL: u64 = word(4, 0, 0);

#[inline]
const fn word(kind: u64, line: usize, value: u64) -> u64 {
    line as u64 + 16 * kind + 512 * value
}

#[inline]
pub fn kind(word: u64) -> u64 {
    word >> 4 & 31
}

#[inline]
pub fn value(word: u64) -> u64 {
    word >> 9
}

impl Outcome {
    /// The word that the archive answers.
    #[inline]
    pub fn word(self) -> u64 {
        match self {
            Outcome::Data { line, length } => word(DATA, line, length as u64),
            Outcome::Marker { line, missing } => word(MISSING, line, missing),
            Outcome::Behind { line } => word(BEHIND, line, 0),
            Outcome::Waiting { line } => word(WAITING, line, 0),
            Outcome::Refused(number) => u64::from(refusal(number)),
        }
    }

    /// What a take's word says.
    pub fn of(word: u64) -> Outcome {
        let line = (word & 15) as usize;
        let outcome = match (said(word), kind(word)) {
            (Err(number), _) => Outcome::Refused(number),
            (_, DATA) => Outcome::Data { line, length: value(word) as usize },
            (_, MISSING) => Outcome::Marker { line, missing: value(word) },
            (_, BEHIND) => Outcome::Behind { line },
            _ => Outcome::Waiting { line },
        };
        assert_eq!(outcome.word(), word, "no take's word");
        outcome
    }
}
