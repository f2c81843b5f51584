//! The program that judges routes.

use super::{Refusal, shuttle, squares, ways};
use crate::reference::field::Field;
use crate::reference::route::{self, RouteFault};
use shared::memory::MOST_LEFT;

pub fn judge(input: &[u8]) -> Vec<u8> {
    super::printed(input, |plan, lines| {
        let field = plan.field();
        let judged =
            lines.numbered_rest().enumerate().map(|(k, (number, line))| match judge_line(&field, k, number, line) {
                Ok(Ok(())) => "route ok\n".to_string(),
                Ok(Err(RouteFault::WrongAt(step) | RouteFault::EndsOutside(step))) => format!("{step}\n"),
                Err(refusal) => format!("{refusal}\n"),
            });
        judged.collect()
    })
}

/// A line that can't be read is told before a shuttle that isn't there or a route that is too long.
fn judge_line(field: &Field, k: usize, number: usize, line: &[u8]) -> Result<Result<(), RouteFault>, Refusal> {
    let (i, letters) = match line {
        [letter, b' ', letters @ ..] if shuttle(*letter).is_some() => (shuttle(*letter).unwrap_or(k), letters),
        _ => (k, line),
    };
    let ways = ways(letters).ok_or(Refusal::Unreadable(number))?;
    if i >= field.bays.len() || ways.len() > MOST_LEFT {
        return Err(Refusal::NoEvent);
    }
    let bay = field.bays[i];
    Ok(route::judge(field, i, bay, &squares(field, bay, &ways)))
}
