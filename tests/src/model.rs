//! What the programs `judge` and `play` print, from the rules of the texts alone: from the bytes of the input to the
//! bytes of standard output.

mod judge;
mod play;
mod text;
mod turns;

pub use judge::judge;
pub use play::play;

use crate::plan::Plan;
use crate::reference::field::{Field, Way};
use crate::reference::route::OUTSIDE;
use std::fmt::{self, Display};
use text::Lines;

/// Why a text or a line of it is refused.
#[derive(Clone, Copy, Debug, PartialEq, Eq)]
pub enum Refusal {
    NoField,
    NoEvent,
    NoWay,
    /// With the number of the line.
    Unreadable(usize),
}

/// What is printed in its line.
impl Display for Refusal {
    fn fmt(&self, f: &mut fmt::Formatter) -> fmt::Result {
        match self {
            Refusal::NoField => write!(f, "refused 1"),
            Refusal::NoEvent => write!(f, "refused 3"),
            Refusal::NoWay => write!(f, "refused 5"),
            Refusal::Unreadable(line) => write!(f, "refused 4 at {line}"),
        }
    }
}

/// What is printed for a text: what `rest` makes of the plan in its first rows and of the lines behind, or why there is
/// no plan.
fn printed(input: &[u8], rest: impl FnOnce(Plan, &Lines) -> String) -> Vec<u8> {
    let lines = Lines::of(input);
    let output = match text::read_plan(&lines.rows) {
        Ok(plan) => rest(plan, &lines),
        Err(refusal) => format!("{refusal}\n"),
    };
    output.into_bytes()
}

/// The number in a word of digits. One that is too large for any limit is as good as the largest.
fn number(word: &[u8]) -> Option<usize> {
    let digit = |byte: &u8| byte.is_ascii_digit().then(|| usize::from(byte - b'0'));
    let digits: Vec<usize> = word.iter().map(digit).collect::<Option<_>>()?;
    (!digits.is_empty())
        .then(|| digits.iter().fold(0, |all: usize, digit| all.saturating_mul(10).saturating_add(*digit)))
}

/// The ways in a word, if every letter is one.
fn ways(word: &[u8]) -> Option<Vec<Way>> {
    word.iter().map(|&letter| Way::of_letter(letter)).collect()
}

/// The shuttle that a letter from a to p names.
fn shuttle(letter: u8) -> Option<usize> {
    (b'a'..=b'p').contains(&letter).then(|| usize::from(letter - b'a'))
}

/// The squares that these ways lead to. From outside every way leads outside.
fn squares(field: &Field, from: u16, ways: &[Way]) -> Vec<u16> {
    let mut at = Some(from);
    ways.iter()
        .map(|&way| {
            at = at.and_then(|square| field.toward(square, way));
            at.unwrap_or(OUTSIDE)
        })
        .collect()
}
