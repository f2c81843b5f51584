//! Compares the library and the two programs with a reference that is written from the rules alone.

mod bench;
mod boundaries;
mod change;
mod changes;
mod compare;
mod examples;
mod hall;
mod lent;
mod model;
mod options;
#[path = "../../bench/src/plain.rs"]
mod plain;
#[path = "../../bench/src/plain_tick.rs"]
mod plain_tick;
#[path = "../../bench/src/plain_way.rs"]
mod plain_way;
mod plan;
mod playing;
mod programs;
mod reference;
mod report;
mod ring;
mod scrambled;
mod tally;
mod text_examples;
mod texts;
mod ticks;
#[path = "../../bench/src/tuned.rs"]
mod tuned;
mod ways;
mod wrong;
mod wrong_copies;

use compare::Extent;
use options::Options;
use programs::Programs;
use report::Group;
use shared::call::Entry;
#[cfg(feature = "library")]
use shared::library::Library;
use std::io::{self, Read, Write};
use std::process::ExitCode;
use texts::Program;

const HELP: &str = "\
trials library       compares the static library with the reference (built with --features library)
trials copy          compares a copy of the rules by another algorithm with it
trials bench         compares the Rust variants that the library's speed is measured beside
trials wrong-copies  shows that each of many wrong copies is caught
                     each of these is about events; with the word way behind it about shortest routes, with the word
                     tick about whose turn it is (the library then built with --features way or tick)
trials texts JUDGE PLAY
                     runs the two programs on random texts and compares what they print with the models
trials model judge   prints what the program judge (or play) is expected to print for standard input
trials text judge N  prints random text N for the program judge (or play)

--seed N             another row of random numbers
--cases N            about so many calls of each random kind, or texts for each program
--kind K --hall N    one hall of events alone: kind playing or scrambled
--without way        play without that command, or without tick; it can't be read then
--only N             one text alone, or one case of ways or ticks";

fn main() -> ExitCode {
    match Options::read(std::env::args().skip(1)).and_then(|options| perform(&options)) {
        Ok(code) => code,
        Err(told) => {
            eprintln!("{told}\n\n{HELP}");
            ExitCode::FAILURE
        }
    }
}

fn perform(options: &Options) -> Result<ExitCode, String> {
    let extent = |calls| Extent { seed: options.seed, calls: options.cases.unwrap_or(calls), only: options.hall };
    let groups = match options.words().as_slice() {
        ["library"] => library(options, extent(3_000_000))?,
        ["copy"] => compared(&mut wrong::copy::RulesCopy { fault: None }, options, extent(1_000_000)),
        ["bench"] => bench::all(extent(300_000)),
        ["wrong-copies"] => wrong_copies::all(extent(20_000)),
        [who, "way"] => of_ways(who, Extent { only: options.only, ..extent(40_000) })?,
        [who, "tick"] => of_ticks(who, Extent { only: options.only, ..extent(100_000) })?,
        ["texts", judge, play] => texts(options, judge, play).map_err(|error| error.to_string())?,
        ["model", name] => return show_model(program(options, name)?).map_err(|error| error.to_string()),
        ["text", name, number] => return show_text(options, program(options, name)?, number),
        other => return Err(format!("unknown command {other:?}")),
    };
    Ok(report::finish(&groups))
}

fn of_ways(who: &str, extent: Extent) -> Result<Vec<Group>, String> {
    match who {
        #[cfg(feature = "way")]
        "library" => Ok(ways::all(&mut Library, extent)),
        #[cfg(not(feature = "way"))]
        "library" => Err("this was built without the library's way; build it with --features way".to_string()),
        "copy" => Ok(ways::all(&mut wrong::way::WayCopy { fault: None }, extent)),
        "bench" => Ok(bench::all_ways(extent)),
        "wrong-copies" => Ok(wrong_copies::all_ways(Extent { calls: extent.calls / 4, ..extent })),
        _ => Err(format!("unknown command {who} way")),
    }
}

fn of_ticks(who: &str, extent: Extent) -> Result<Vec<Group>, String> {
    match who {
        #[cfg(feature = "tick")]
        "library" => Ok(ticks::all(&mut Library, extent)),
        #[cfg(not(feature = "tick"))]
        "library" => Err("this was built without the library's tick; build it with --features tick".to_string()),
        "copy" => Ok(ticks::all(&mut wrong::tick::TickCopy { fault: None }, extent)),
        "bench" => Ok(bench::all_ticks(extent)),
        "wrong-copies" => Ok(wrong_copies::all_ticks(Extent { calls: extent.calls / 10, ..extent })),
        _ => Err(format!("unknown command {who} tick")),
    }
}

fn texts(options: &Options, judge: &str, play: &str) -> io::Result<Vec<Group>> {
    let programs = Programs::new(judge, play)?;
    let mut groups = text_examples::all();
    groups.extend(programs.all(options.commands, options.seed, options.cases.unwrap_or(1500), options.only));
    Ok(groups)
}

fn program(options: &Options, name: &str) -> Result<Program, String> {
    let programs = [Program::Judge, Program::Play(options.commands)];
    programs.into_iter().find(|program| program.name() == name).ok_or(format!("no program {name}"))
}

fn show_model(program: Program) -> io::Result<ExitCode> {
    let mut text = Vec::new();
    io::stdin().read_to_end(&mut text)?;
    io::stdout().write_all(&programs::expected(program, &text))?;
    Ok(ExitCode::SUCCESS)
}

fn show_text(options: &Options, program: Program, number: &str) -> Result<ExitCode, String> {
    let text = programs::random_text(program, options.seed, options::number(number)?);
    io::stdout().write_all(&text).map_err(|error| error.to_string())?;
    Ok(ExitCode::SUCCESS)
}

fn compared(entry: &mut dyn Entry, options: &Options, extent: Extent) -> Vec<Group> {
    match options.kind {
        Some(kind) => vec![compare::of_kind(kind, &compare::run(kind, entry, extent))],
        None => compare::all(entry, extent),
    }
}

#[cfg(feature = "library")]
fn library(options: &Options, extent: Extent) -> Result<Vec<Group>, String> {
    Ok(compared(&mut Library, options, extent))
}

#[cfg(not(feature = "library"))]
fn library(_: &Options, _: Extent) -> Result<Vec<Group>, String> {
    Err("this was built without the library; build it with --features library".to_string())
}
