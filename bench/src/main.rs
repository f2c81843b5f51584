//! Times of the library beside plain Rust of the same algorithm with the same checks, and beside a tuned variant; how
//! many ticks nights take beside the bound; and what the rule is worth in a hall. Prints it as one document.

mod case;
mod chart;
mod contender;
mod halls;
mod measure;
mod nights;
mod paths;
mod plain;
mod plain_tick;
mod plain_way;
mod rules;
mod throughput;
mod ticks;
mod tuned;
mod warehouse;
mod ways;

use case::{Case, Contender};
use std::process::ExitCode;

fn main() -> ExitCode {
    match print_all(std::env::args().nth(1).as_deref()) {
        Ok(()) => ExitCode::SUCCESS,
        Err(fault) => {
            eprintln!("{fault}");
            ExitCode::FAILURE
        }
    }
}

/// With the name of a file the picture is written to it.
fn print_all(picture: Option<&str>) -> Result<(), String> {
    println!("# Measured\n\n## Times\n");
    println!("One whole call; median of many turns, the contenders in turns within one run, all buffers warm.");
    println!("Times in nanoseconds for plain Rust; the others as multiples of it.");
    print_times("Event", &contender::all(), &halls::all())?;
    print_times("Shortest route", &ways::contenders(), &ways::all())?;
    print_times("Tick", &ticks::contenders(), &ticks::all())?;
    nights::print();
    let lines = throughput::all();
    throughput::print(&lines);
    picture.map_or(Ok(()), |name| std::fs::write(name, chart::svg(&lines)).map_err(|error| format!("{name}: {error}")))
}

fn print_times<C: Case>(title: &str, contenders: &[Contender<C::Function>], cases: &[C]) -> Result<(), String> {
    cases.iter().try_for_each(|case| case::agree(contenders, case))?;
    let others: String = contenders[1..].iter().map(|contender| format!(" {} |", contender.name)).collect();
    println!("\n| {title} | plain, ns |{others}");
    println!("|---|---:|{}", "---:|".repeat(contenders.len() - 1));
    for case in cases {
        let measured = measure::measure(contenders, case);
        let ratios: String = measured.others.iter().map(|ratio| format!(" {ratio:.2} |")).collect();
        println!("| {} | {:.0} |{ratios}", case.name(), measured.first);
    }
    Ok(())
}
