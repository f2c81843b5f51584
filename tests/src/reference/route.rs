//! Routes, and the first step at which one isn't one.

use super::field::Field;

/// Why squares are no route.
#[derive(Clone, Copy, Debug, PartialEq, Eq)]
pub enum RouteFault {
    /// The first wrong step, counted from 0.
    WrongAt(usize),
    /// No step is wrong, but after so many steps it ends outside the bay.
    EndsOutside(usize),
}

/// A number that is no square of any field: where a step over the edge leads.
pub const OUTSIDE: u16 = u16::MAX;

/// Whether these squares are a route of the shuttle from a square. Every route ends in the shuttle's bay, enters
/// it only there, and passes no other bay.
pub fn judge(field: &Field, shuttle: usize, from: u16, route: &[u16]) -> Result<(), RouteFault> {
    let own = field.bays[shuttle];
    let mut at = from;
    for (step, &next) in route.iter().enumerate() {
        let is_last = step + 1 == route.len();
        let may_enter = if next == own { is_last } else { !field.bays.contains(&next) };
        if !field.is_free(next) || !field.beside(at, next) || !may_enter {
            return Err(RouteFault::WrongAt(step));
        }
        at = next;
    }
    if at == own { Ok(()) } else { Err(RouteFault::EndsOutside(route.len())) }
}
