//! Changes of a good call, each with the refusal that it asks for.

use crate::boundaries::Call;
use crate::change::{Change, good, refused};
use shared::answer::Refusal::{Event, Field, Memory};
use shared::memory::{BEHIND, LENGTH, MARK, MOST_LEFT, PER_SHUTTLE, PLACES, SQUARE};

const fn length(name: &'static str, make: fn(&mut Call) -> bool) -> Change<Call> {
    Change { of_length: true, ..refused(Memory, name, make) }
}

pub const ALL: &[Change<Call>] = &[
    // The size of the field, with numbers too that are good once cut to fewer bits.
    refused(Field, "no square across", |c| across(c, 0)),
    refused(Field, "no square down", |c| down(c, 0)),
    refused(Field, "neither across nor down", |c| across(c, 0) && down(c, 0) && walls(c, 0)),
    refused(Field, "no square across and no walls", |c| across(c, 0) && walls(c, 0)),
    refused(Field, "65 across", |c| c.plan.down == 1 && across(c, 65) && walls(c, 65)),
    refused(Field, "65 down", |c| c.plan.across == 1 && down(c, 65) && walls(c, 65)),
    refused(Field, "65 across, 64 down", |c| across(c, 65) && down(c, 64) && walls(c, 65 * 64)),
    refused(Field, "64 across, 65 down", |c| across(c, 64) && down(c, 65) && walls(c, 65 * 64)),
    refused(Field, "256 more across", |c| across(c, c.plan.across + 256)),
    refused(Field, "2^32 more across", |c| across(c, c.plan.across + (1 << 32))),
    refused(Field, "256 more down", |c| down(c, c.plan.down + 256)),
    refused(Field, "2^32 more down", |c| down(c, c.plan.down + (1 << 32))),
    refused(Field, "the most across", |c| across(c, u64::MAX)),
    refused(Field, "the most down", |c| down(c, u64::MAX)),
    refused(Field, "2^32 by 2^32 and no walls", |c| across(c, 1 << 32) && down(c, 1 << 32) && walls(c, 0)),
    // Walls.
    refused(Field, "no walls", |c| walls(c, 0)),
    refused(Field, "a wall too few", |c| walls(c, c.plan.walls.len() - 1)),
    refused(Field, "a wall too many", |c| walls(c, c.plan.walls.len() + 1)),
    refused(Field, "mark 2 first", |c| wall(c, 0, 2)),
    refused(Field, "mark 2 last", |c| wall(c, c.plan.walls.len() - 1, 2)),
    refused(Field, "mark 255 first", |c| wall(c, 0, 255)),
    refused(Field, "mark 255 last", |c| wall(c, c.plan.walls.len() - 1, 255)),
    good("a wall beside the first bay", |c| free_wall(c, 1)),
    good("a wall beside the last bay", |c| c.plan.walls.len() > 1 && free_wall(c, c.plan.walls.len() - 2)),
    // Bays.
    refused(Field, "a seventeenth bay", seventeenth_bay),
    refused(Field, "two hundred bays", |c| c.plan.bays.len() == 16 && bays(c, 200)),
    refused(Field, "the first bay a wall", |c| wall(c, usize::from(c.plan.bays[0]), 1)),
    refused(Field, "the last bay a wall", |c| wall(c, usize::from(c.plan.bays[c.plan.bays.len() - 1]), 1)),
    refused(Field, "the first bay just outside", |c| bay(c, 0, c.plan.walls.len() as u16)),
    refused(Field, "the last bay just outside", |c| bay(c, c.plan.bays.len() - 1, c.plan.walls.len() as u16)),
    refused(Field, "the first bay far outside", |c| bay(c, 0, u16::MAX)),
    refused(Field, "the last bay far outside", |c| bay(c, c.plan.bays.len() - 1, u16::MAX)),
    refused(Field, "the first and the last bay the same", |c| c.plan.bays.len() > 1 && bay(c, 0, last_bay(c))),
    refused(Field, "the first and the second bay the same", |c| c.plan.bays.len() > 1 && bay(c, 0, c.plan.bays[1])),
    refused(Field, "the last two bays the same", |c| {
        c.plan.bays.len() > 2 && bay(c, c.plan.bays.len() - 2, last_bay(c))
    }),
    good("the last square a wall where no bay is", |c| free_wall(c, c.plan.walls.len() / 2)),
    // The length of memory.
    length("no memory", |c| resize(c, 0)),
    length("a number too few", |c| resize(c, c.memory.len() - 1)),
    length("a number too many", |c| resize(c, c.memory.len() + 1)),
    length("a shuttle too few", |c| resize(c, c.memory.len() - PER_SHUTTLE)),
    length("a shuttle too many", |c| resize(c, c.memory.len() + PER_SHUTTLE)),
    // The numbers in memory, of the first and of the last shuttle.
    good("the first moves", |c| first(c, MARK, 1)),
    good("the last moves", |c| last(c, MARK, 1)),
    refused(Memory, "mark 2 of the first", |c| first(c, MARK, 2)),
    refused(Memory, "mark 2 of the last", |c| last(c, MARK, 2)),
    refused(Memory, "mark 256 of the first", |c| first(c, MARK, 256)),
    refused(Memory, "mark 65535 of the last", |c| last(c, MARK, u16::MAX)),
    refused(Memory, "257 left to the first", |c| first(c, LENGTH, 257)),
    refused(Memory, "257 left to the last", |c| last(c, LENGTH, 257)),
    refused(Memory, "65535 left to the first", |c| first(c, LENGTH, u16::MAX)),
    refused(Memory, "65535 left to the last", |c| last(c, LENGTH, u16::MAX)),
    good("the first on the last square", |c| first(c, SQUARE, outside(c) - 1)),
    good("the last on the first square", |c| last(c, SQUARE, 0)),
    refused(Memory, "the first just outside", |c| first(c, SQUARE, outside(c))),
    refused(Memory, "the last just outside", |c| last(c, SQUARE, outside(c))),
    refused(Memory, "the first far outside", |c| first(c, SQUARE, u16::MAX)),
    refused(Memory, "the last far outside", |c| last(c, SQUARE, u16::MAX)),
    good("the last square behind the first", |c| first(c, BEHIND, outside(c) - 1)),
    refused(Memory, "behind the first just outside", |c| first(c, BEHIND, outside(c))),
    refused(Memory, "behind the last just outside", |c| last(c, BEHIND, outside(c))),
    refused(Memory, "behind the first just outside while it moves", |c| {
        first(c, MARK, 1) && first(c, BEHIND, outside(c))
    }),
    refused(Memory, "behind the last far outside", |c| last(c, BEHIND, u16::MAX)),
    refused(Memory, "the first of the first route outside", |c| c.left() > 0 && first(c, PLACES, outside(c))),
    refused(Memory, "the last of the first route outside", |c| {
        c.left() > 0 && first(c, PLACES + c.left() - 1, outside(c))
    }),
    refused(Memory, "the first of the last route outside", |c| c.left() > 0 && last(c, PLACES, outside(c))),
    refused(Memory, "the last of the last route outside", |c| {
        c.left() > 0 && last(c, PLACES + c.left() - 1, outside(c))
    }),
    refused(Memory, "the last of the last route far outside", |c| {
        c.left() > 0 && last(c, PLACES + c.left() - 1, u16::MAX)
    }),
    good("behind the first route outside", |c| c.left() < MOST_LEFT && first(c, PLACES + c.left(), outside(c))),
    good("behind the last route outside", |c| c.left() < MOST_LEFT && last(c, PLACES + c.left(), outside(c))),
    // The event.
    refused(Event, "kind 3", |c| kind(c, 3)),
    refused(Event, "kind 256 more", |c| kind(c, c.kind + 256)),
    refused(Event, "kind 2^32 more", |c| kind(c, c.kind + (1 << 32))),
    refused(Event, "the highest kind", |c| kind(c, u64::MAX)),
    good("the last shuttle", |c| shuttle(c, c.plan.bays.len() as u64 - 1)),
    refused(Event, "a shuttle past the last", |c| shuttle(c, c.plan.bays.len() as u64)),
    refused(Event, "shuttle 16", |c| shuttle(c, 16)),
    refused(Event, "shuttle 256", |c| shuttle(c, 256)),
    refused(Event, "shuttle 65536", |c| shuttle(c, 65536)),
    refused(Event, "shuttle 2^32", |c| shuttle(c, 1 << 32)),
    refused(Event, "the highest shuttle", |c| shuttle(c, u64::MAX)),
    good("a route of 256", |c| route(c, 256, 0)),
    refused(Event, "a route of 257", |c| route(c, 257, 0)),
    refused(Event, "a route of 5000", |c| route(c, 5000, 0)),
    refused(Event, "a route of 65536", |c| route(c, 65536, 0)),
    good("square 4095 first", |c| route(c, 256, 0) && route_square(c, 0, 4095)),
    good("square 4095 last", |c| route(c, 256, 0) && route_square(c, 255, 4095)),
    refused(Event, "square 4096 alone", |c| route(c, 1, 4096)),
    refused(Event, "square 4096 first", |c| route(c, 256, 0) && route_square(c, 0, 4096)),
    refused(Event, "square 4096 last", |c| route(c, 256, 0) && route_square(c, 255, 4096)),
    refused(Event, "square 65535 first", |c| route(c, 3, 0) && route_square(c, 0, u16::MAX)),
    refused(Event, "square 65535 last", |c| route(c, 3, 0) && route_square(c, 2, u16::MAX)),
];

fn across(call: &mut Call, across: u64) -> bool {
    call.plan.across = across;
    true
}

fn down(call: &mut Call, down: u64) -> bool {
    call.plan.down = down;
    true
}

fn walls(call: &mut Call, count: usize) -> bool {
    call.plan.walls.resize(count, 0);
    true
}

fn wall(call: &mut Call, place: usize, mark: u8) -> bool {
    call.plan.walls[place] = mark;
    true
}

fn free_wall(call: &mut Call, place: usize) -> bool {
    place < call.plan.walls.len() && !call.plan.bays.contains(&(place as u16)) && wall(call, place, 1)
}

fn bay(call: &mut Call, place: usize, square: u16) -> bool {
    call.plan.bays[place] = square;
    true
}

fn last_bay(call: &Call) -> u16 {
    call.plan.bays[call.plan.bays.len() - 1]
}

/// One more bay on a free square, and memory for its shuttle, so that nothing but the count is wrong.
fn seventeenth_bay(call: &mut Call) -> bool {
    let free = (0..outside(call)).find(|square| !call.plan.bays.contains(square));
    let (16, Some(free)) = (call.plan.bays.len(), free) else {
        return false;
    };
    call.plan.bays.push(free);
    let one_more = call.memory.get(..PER_SHUTTLE).unwrap_or_default().to_vec();
    call.memory.extend(one_more);
    true
}

fn bays(call: &mut Call, count: usize) -> bool {
    call.plan.bays.resize(count, 0);
    true
}

fn outside(call: &Call) -> u16 {
    call.plan.walls.len() as u16
}

fn resize(call: &mut Call, count: usize) -> bool {
    call.memory.resize(count, 0);
    true
}

fn first(call: &mut Call, place: usize, number: u16) -> bool {
    call.memory[place] = number;
    true
}

fn last(call: &mut Call, place: usize, number: u16) -> bool {
    let from = call.memory.len() - PER_SHUTTLE;
    call.memory[from + place] = number;
    true
}

fn kind(call: &mut Call, kind: u64) -> bool {
    call.kind = kind;
    true
}

fn shuttle(call: &mut Call, shuttle: u64) -> bool {
    call.shuttle = shuttle;
    true
}

fn route(call: &mut Call, count: usize, square: u16) -> bool {
    call.route = vec![square; count];
    true
}

fn route_square(call: &mut Call, place: usize, square: u16) -> bool {
    call.route[place] = square;
    true
}
