//! What is printed: a line for each group of cases, and the counts in the last line.

use std::process::ExitCode;

pub struct Group {
    pub name: String,
    /// What was done, if it went well.
    pub done: String,
    pub failure: Option<String>,
}

impl Group {
    fn print(&self) {
        match &self.failure {
            None => println!("ok      {}: {}", self.name, self.done),
            Some(failure) => println!("FAILED  {}: {failure}", self.name),
        }
    }
}

pub fn finish(groups: &[Group]) -> ExitCode {
    groups.iter().for_each(Group::print);
    let failed = groups.iter().filter(|group| group.failure.is_some()).count();
    println!("{} passed, {failed} failed", groups.len() - failed);
    if failed == 0 && !groups.is_empty() { ExitCode::SUCCESS } else { ExitCode::FAILURE }
}
