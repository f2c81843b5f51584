//! What calls answer.

/// Why a call is refused. The first that applies is answered.
#[derive(Clone, Copy, Debug, PartialEq, Eq, PartialOrd, Ord)]
pub enum Refusal {
    Field,
    Memory,
    Event,
    Way,
    Turns,
    /// No refusal, but a number that no such call answers.
    Unnamed(u64),
}

pub type Answer<T> = Result<T, Refusal>;

/// The number that is answered in C.
impl From<Refusal> for u64 {
    #[inline]
    fn from(refusal: Refusal) -> u64 {
        match refusal {
            Refusal::Field => 17,
            Refusal::Memory => 18,
            Refusal::Event => 19,
            Refusal::Way => 21,
            Refusal::Turns => 22,
            Refusal::Unnamed(number) => number,
        }
    }
}

impl From<u64> for Refusal {
    fn from(number: u64) -> Refusal {
        match number {
            17 => Refusal::Field,
            18 => Refusal::Memory,
            19 => Refusal::Event,
            21 => Refusal::Way,
            22 => Refusal::Turns,
            number => Refusal::Unnamed(number),
        }
    }
}
