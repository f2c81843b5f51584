//! The program that plays a row of events.

use super::turns::Turns;
use super::{Refusal, number, shuttle, squares, ways};
use crate::plan::Plan;
use crate::reference::Reference;
use crate::reference::field::Way;
use crate::reference::fleet;
use crate::reference::route::OUTSIDE;
use crate::reference::way::first_shortest;
use crate::texts::Commands;
use shared::call::{ARRIVE, Entry, EventNumbers, MOST_ASKED, ORDER, STEP};
use shared::memory::{MOST_LEFT, PER_SHUTTLE, part_of};
use shared::random::Random;

enum Command {
    Nothing,
    Show,
    Order(usize, Vec<Way>),
    Step(usize),
    Arrive(usize),
    /// With squares as column and row.
    Way(usize, Vec<(usize, usize)>),
    /// So many ticks, each arrival due so many ticks after its step.
    Tick(usize, usize),
}

struct Hall {
    plan: Plan,
    memory: Vec<u16>,
    reference: Reference,
    turns: Turns,
}

pub fn play(input: &[u8], commands: Commands) -> Vec<u8> {
    super::printed(input, |plan, lines| {
        let mut hall = Hall::new(plan);
        let answer = |(number, line): (usize, &[u8])| {
            let command = read(line, commands).ok_or(Refusal::Unreadable(number));
            command.and_then(|command| hall.perform(command)).unwrap_or_else(|refusal| format!("{refusal}\n"))
        };
        lines.numbered_rest().map(answer).collect()
    })
}

fn read(line: &[u8], commands: Commands) -> Option<Command> {
    let words: Vec<&[u8]> = line.split(|&byte| byte == b' ').filter(|word| !word.is_empty()).collect();
    match words[..] {
        [] => Some(Command::Nothing),
        [b"show"] => Some(Command::Show),
        [b"order", &[letter]] => Some(Command::Order(shuttle(letter)?, Vec::new())),
        [b"order", &[letter], letters] => Some(Command::Order(shuttle(letter)?, ways(letters)?)),
        [b"step", &[letter]] => Some(Command::Step(shuttle(letter)?)),
        [b"arrive", &[letter]] => Some(Command::Arrive(shuttle(letter)?)),
        [b"way", &[letter], ref squares @ ..] if commands.way => {
            Some(Command::Way(shuttle(letter)?, squares.iter().map(|word| square(word)).collect::<Option<_>>()?))
        }
        [b"tick", count, b"d", after] if commands.tick => {
            let count = number(count).filter(|count| (1..=10_000).contains(count))?;
            Some(Command::Tick(count, number(after).filter(|after| (1..=1000).contains(after))?))
        }
        _ => None,
    }
}

/// Column and row, with a comma between.
fn square(word: &[u8]) -> Option<(usize, usize)> {
    let comma = word.iter().position(|&byte| byte == b',')?;
    Some((number(&word[..comma])?, number(&word[comma + 1..])?))
}

impl Hall {
    fn new(plan: Plan) -> Hall {
        let mut memory = vec![0; PER_SHUTTLE * plan.bays.len()];
        let mut reference = Reference::new(Random::new(0));
        reference.start(plan.numbers(), &mut memory).expect("a plan that was read is a field");
        let turns = Turns::new(plan.bays.len());
        Hall { plan, memory, reference, turns }
    }

    /// What is printed for the command.
    fn perform(&mut self, command: Command) -> Result<String, Refusal> {
        let happened = match command {
            Command::Nothing => return Ok(String::new()),
            Command::Show => return Ok(self.show()),
            Command::Order(i, ways) => self.order(i, &ways)?,
            Command::Step(i) => self.happen(STEP, i, &[])?,
            Command::Arrive(i) => self.happen(ARRIVE, i, &[])?,
            Command::Way(i, squares) => return self.way(i, &squares),
            Command::Tick(count, after) => return Ok(self.ticks(count, after)),
        };
        Ok(if happened { "granted\n" } else { "not\n" }.to_string())
    }

    /// An order that leads over the edge is not taken; whether there is such a shuttle is asked first.
    fn order(&mut self, i: usize, ways: &[Way]) -> Result<bool, Refusal> {
        if i >= self.plan.bays.len() || ways.len() > MOST_LEFT {
            return Err(Refusal::NoEvent);
        }
        let route = squares(&self.plan.field(), part_of(&self.memory, i)[0], ways);
        if route.contains(&OUTSIDE) { Ok(false) } else { self.happen(ORDER, i, &route) }
    }

    fn happen(&mut self, kind: u64, shuttle: usize, route: &[u16]) -> Result<bool, Refusal> {
        if shuttle >= self.plan.bays.len() {
            return Err(Refusal::NoEvent);
        }
        let event = EventNumbers { kind, shuttle: shuttle as u64, route };
        let happened = self.reference.happen(self.plan.numbers(), &mut self.memory, event) == Ok(true);
        if happened && kind == STEP {
            self.turns.stepped(shuttle);
        }
        Ok(happened)
    }

    fn way(&self, shuttle: usize, asked: &[(usize, usize)]) -> Result<String, Refusal> {
        let field = self.plan.field();
        let &bay = field.bays.get(shuttle).ok_or(Refusal::NoEvent)?;
        let outside = asked.iter().any(|&(column, row)| column >= field.across || row >= field.down);
        if outside || asked.len() > MOST_ASKED {
            return Err(Refusal::NoWay);
        }
        let squares: Vec<u16> = asked.iter().map(|&(column, row)| (row * field.across + column) as u16).collect();
        let route = first_shortest(&field, shuttle, bay, &squares).filter(|route| route.len() <= MOST_LEFT);
        let letters = |route: Vec<u16>| field.ways(bay, &route).map(|way| char::from(way.letter())).collect();
        Ok(route.map_or("none".to_string(), letters) + "\n")
    }

    fn ticks(&mut self, count: usize, after: usize) -> String {
        let tick = |_| {
            let granted = self.turns.tick(&mut self.reference, &self.plan, &mut self.memory, after);
            [granted.map_or('-', |shuttle| char::from(b'a' + shuttle as u8)), '\n']
        };
        (0..count).flat_map(tick).collect()
    }

    fn show(&self) -> String {
        let field = self.plan.field();
        let fleet = fleet::read(&field, &self.memory).expect("what events leave is acceptable memory");
        let sign = |square: u16| {
            let letter = |from: u8, i: usize| char::from(from + i as u8);
            let holder = fleet.iter().position(|shuttle| shuttle.holds(square)).map(|i| letter(b'A', i));
            let bay = field.bays.iter().position(|&bay| bay == square).map(|i| letter(b'a', i));
            let free = if field.is_free(square) { '.' } else { '#' };
            holder.or(bay).unwrap_or(free)
        };
        let squares: Vec<u16> = (0..field.walls.len() as u16).collect();
        squares.chunks(field.across).flat_map(|row| row.iter().map(|&square| sign(square)).chain(['\n'])).collect()
    }
}
