//! What is measured: one call, made in the same way of every contender.

use shared::function::Function;
use std::fmt::Debug;

pub trait Case {
    /// A function that takes its arguments in the way in which the library does.
    type Function: Function<Told: Debug + PartialEq>;
    /// What is lent to the call to be changed.
    type Lent: Clone + PartialEq;

    fn name(&self) -> &str;
    /// What every contender must answer.
    fn told(&self) -> <Self::Function as Function>::Told;
    fn lent(&self) -> Self::Lent;
    /// Puts back what a call may have changed.
    fn put_back(&self, lent: &mut Self::Lent);
    fn call(&self, function: Self::Function, lent: &mut Self::Lent) -> u64;
}

#[derive(Clone, Copy)]
pub struct Contender<F> {
    pub name: &'static str,
    pub function: F,
}

/// Contenders are worth comparing only if they do the same.
pub fn agree<C: Case>(contenders: &[Contender<C::Function>], case: &C) -> Result<(), String> {
    let mut expected = None;
    for contender in contenders {
        let mut lent = case.lent();
        let answer = C::Function::answer(case.call(contender.function, &mut lent));
        if answer != Ok(case.told()) {
            return Err(format!("{}: {} answers {answer:?}, not {:?}", case.name(), contender.name, case.told()));
        }
        if *expected.get_or_insert_with(|| lent.clone()) != lent {
            return Err(format!("{}: {} leaves other numbers than plain Rust", case.name(), contender.name));
        }
    }
    Ok(())
}
