//! Random texts for the two programs: good ones, and damaged ones of every kind that the rules speak of.

use crate::plan::{self, Plan};
use crate::reference::field::{Field, Way};
use crate::ring::Ring;
use shared::random::Random;

#[derive(Clone, Copy, Debug, PartialEq, Eq)]
pub enum Program {
    Judge,
    Play(Commands),
}

/// Commands that the program may be without; they can't be read then.
#[derive(Clone, Copy, Debug, PartialEq, Eq)]
pub struct Commands {
    pub way: bool,
    pub tick: bool,
}

impl Program {
    pub fn name(self) -> &'static str {
        match self {
            Program::Judge => "judge",
            Program::Play(_) => "play",
        }
    }
}

/// A text of its own for each number.
pub fn text(random: &mut Random, program: Program) -> Vec<u8> {
    if random.one_in(40) {
        return any_bytes(random);
    }
    let Ring { plan, routes } = Ring::one_in(random, 4);
    let mut rows = rows(&plan);
    if random.one_in(6) {
        damage_rows(random, &mut rows);
    }
    let mut lines = rows;
    if !random.one_in(30) {
        lines.push(Vec::new());
        let count = random.between(0, 120);
        lines.extend((0..count).map(|_| line(random, program, &plan.field(), &routes)));
    }
    let mut text = join(random, &lines);
    if random.one_in(6) {
        damage_bytes(random, &mut text);
    }
    text
}

/// The rows of a field as it is read.
fn rows(plan: &Plan) -> Vec<Vec<u8>> {
    let sign = |square: usize| match plan.bays.iter().position(|&bay| usize::from(bay) == square) {
        Some(i) => b'a' + i as u8,
        None if plan.walls[square] == 1 => b'#',
        None => b'.',
    };
    let signs: Vec<u8> = (0..plan.squares()).map(sign).collect();
    signs.chunks(plan.across as usize).map(<[u8]>::to_vec).collect()
}

/// One fault in the field, or a size past the limit.
fn damage_rows(random: &mut Random, rows: &mut Vec<Vec<u8>>) {
    let row = random.below(rows.len());
    let column = random.below(rows[row].len());
    match random.below(8) {
        0 => rows[row][column] = *random.pick(b"q?A \t\r\x00\x80\xff"),
        1 => rows[row][column] = random.between(usize::from(b'a'), usize::from(b'q')) as u8,
        2 => drop(rows[row].remove(column)),
        3 => rows[row].insert(column, b'.'),
        4 => rows.resize(*random.pick(&[63, 64, 65, 66, 300]), vec![b'.'; rows[0].len()]),
        5 => {
            let across = *random.pick(&[63, 64, 65, 66, 5000]);
            rows.iter_mut().for_each(|row| row.resize(across, b'#'));
        }
        6 => rows.insert(row, Vec::new()),
        // Seventeen letters in a row of their own.
        _ => rows.push((b'a'..=b'q').collect()),
    }
}

fn line(random: &mut Random, program: Program, field: &Field, routes: &[Vec<u16>]) -> Vec<u8> {
    let mut line = match program {
        Program::Judge => judge_line(random, field, routes),
        Program::Play(commands) => play_line(random, field, routes, commands),
    };
    if random.one_in(25) && !line.is_empty() {
        damage_bytes(random, &mut line);
    }
    line
}

fn judge_line(random: &mut Random, field: &Field, routes: &[Vec<u16>]) -> Vec<u8> {
    let shuttle = random.below_or_past(field.bays.len());
    let letters = letters(random, field, shuttle, routes);
    match random.below(12) {
        0 => letters,
        1 => Vec::new(),
        2 => [&[b'a' + shuttle as u8], b"  ".as_slice(), &letters].concat(),
        _ => [&[b'a' + shuttle as u8], b" ".as_slice(), &letters].concat(),
    }
}

fn play_line(random: &mut Random, field: &Field, routes: &[Vec<u16>], commands: Commands) -> Vec<u8> {
    let shuttle = random.below_or_past(field.bays.len());
    let letter = vec![b'a' + shuttle as u8];
    let words: Vec<Vec<u8>> = match random.below(24) {
        0 => vec![b"show".to_vec()],
        1 => vec![],
        2..=6 => vec![b"order".to_vec(), letter, letters(random, field, shuttle, routes)],
        7..=13 => vec![b"step".to_vec(), letter],
        14..=18 => vec![b"arrive".to_vec(), letter],
        19..=20 if commands.way => way_words(random, field, letter),
        21..=22 if commands.tick => tick_words(random),
        _ => odd_words(random, letter),
    };
    with_blanks(random, &words)
}

/// Words apart by one blank, now and then by more, and with some before and after.
fn with_blanks(random: &mut Random, words: &[Vec<u8>]) -> Vec<u8> {
    let blanks = |random: &mut Random, least: usize| {
        let more = if random.one_in(10) { random.between(1, 3) } else { 0 };
        vec![b' '; least + more]
    };
    let mut line = blanks(random, 0);
    for (place, word) in words.iter().enumerate() {
        line.extend(blanks(random, usize::from(place > 0)));
        line.extend(word);
    }
    line.extend(blanks(random, 0));
    line
}

fn way_words(random: &mut Random, field: &Field, letter: Vec<u8>) -> Vec<Vec<u8>> {
    let count = *random.pick(&[0, 1, 1, 2, 2, 3, 5, 8, 9]);
    let squares = (0..count).map(|_| square_word(random, field));
    [b"way".to_vec(), letter].into_iter().chain(squares.collect::<Vec<_>>()).collect()
}

/// A square as column and row, now and then one outside, or no square.
fn square_word(random: &mut Random, field: &Field) -> Vec<u8> {
    let column = if random.one_in(40) { field.across } else { random.below(field.across) };
    let row = if random.one_in(40) { field.down } else { random.below(field.down) };
    match random.below(60) {
        0 => {
            random.pick(&["", ",", "1", "1,", ",1", "1,1,1", "1;1", "-1,1", "+1,1", "1,a", "1.0,1"]).as_bytes().to_vec()
        }
        1 => format!("{column},{row}{}", "0".repeat(random.between(1, 30))).into_bytes(),
        2 => format!("{}{column},0{row}", "0".repeat(random.between(1, 30))).into_bytes(),
        _ => format!("{column},{row}").into_bytes(),
    }
}

/// Few ticks mostly, and arrivals that come soon; now and then a number at or past its limit, or no number.
fn tick_words(random: &mut Random) -> Vec<Vec<u8>> {
    let count = match random.below(60) {
        0 => *random.pick(&["10000", "9999", "0010000"]),
        1..=3 => *random.pick(&["0", "10001", "4294967297", "18446744073709551617", "-1", "+1", "x", "1e1", "1.0"]),
        _ => *random.pick(&["1", "1", "1", "2", "3", "5", "08", "20", "40"]),
    };
    let due = match random.below(60) {
        0 => *random.pick(&["1000", "999", "001000"]),
        1..=3 => *random.pick(&["0", "1001", "65537", "18446744073709551617", "-1", "d", "1,"]),
        _ => *random.pick(&["1", "1", "2", "3", "03", "7", "30"]),
    };
    let d = if random.one_in(60) { *random.pick(&["D", "dd", "e", "d1"]) } else { "d" };
    let mut words = vec!["tick", count, d, due];
    match random.below(80) {
        0 => drop(words.remove(random.between(1, 3))),
        1 => words.insert(random.between(1, 4), "1"),
        _ => {}
    }
    words.into_iter().map(|word| word.as_bytes().to_vec()).collect()
}

/// Words that are no command, or hardly one.
fn odd_words(random: &mut Random, letter: Vec<u8>) -> Vec<Vec<u8>> {
    let words: [&[u8]; 15] = [
        b"show",
        b"order",
        b"step",
        b"arrive",
        b"Step",
        b"steps",
        b"q",
        b"aa",
        b"A",
        b"rl",
        b"a\t",
        b"\xc3\xa4",
        b"Way",
        b"ticks",
        b"0,0",
    ];
    let count = random.between(0, 4);
    (0..count).map(|_| if random.one_in(3) { letter.clone() } else { random.pick(&words).to_vec() }).collect()
}

/// A route in letters, mostly a good one.
fn letters(random: &mut Random, field: &Field, shuttle: usize, routes: &[Vec<u16>]) -> Vec<u8> {
    let Some(&bay) = field.bays.get(shuttle) else {
        return b"rl".to_vec();
    };
    let steps = *random.pick(&[1, 3, 8, 20, 127, 128, 129]);
    let route = match routes.get(shuttle) {
        Some(route) if !random.one_in(6) => route.clone(),
        _ => plan::route(random, field, shuttle, bay, steps),
    };
    let mut letters: Vec<u8> = field.ways(bay, &route).map(Way::letter).collect();
    if random.one_in(6) {
        let place = random.below(letters.len() + 1);
        letters.insert(place, *random.pick(b"lrudlrudx"));
    }
    letters
}

/// Lines with one kind of end or with both, and with or without one at the end of the text.
fn join(random: &mut Random, lines: &[Vec<u8>]) -> Vec<u8> {
    let crs = *random.pick(&[0, 0, 0, 50, 100]);
    let mut text = Vec::new();
    for line in lines {
        text.extend(line);
        text.extend(if random.below(100) < crs { b"\r\n".as_slice() } else { b"\n" });
    }
    if random.one_in(3) {
        text.pop();
    }
    text
}

/// Replaces, inserts or removes a few bytes anywhere.
fn damage_bytes(random: &mut Random, text: &mut Vec<u8>) {
    for _ in 0..random.between(1, 3) {
        let place = random.below(text.len() + 1);
        let byte = if random.one_in(2) { random.below(256) as u8 } else { *random.pick(b"\r\n \t.#abdlrupq") };
        match random.below(3) {
            0 => text.insert(place, byte),
            1 if place < text.len() => text[place] = byte,
            2 if place < text.len() => drop(text.remove(place)),
            _ => {}
        }
    }
}

/// A text that was never one, now and then a long one without an end of line.
fn any_bytes(random: &mut Random) -> Vec<u8> {
    let length = *random.pick(&[0, 1, 2, 5, 50, 1000]);
    let signs: [&[u8]; 6] = [b"\n", b"\r\n", b"a.#\n", b".", b"a\n b.", b"\x00\x7f\x80\xff\n"];
    let from = *random.pick(&signs);
    (0..length).map(|_| *random.pick(from)).collect()
}

/// A megabyte in one line: as a row, as a route and as a command.
pub fn long_lines() -> Vec<Vec<u8>> {
    let long = |sign: u8| vec![sign; 1 << 20];
    vec![
        long(b'.'),
        long(b'\r'),
        [b"a.\n\n".as_slice(), &long(b'r')].concat(),
        [b"a.\n\na ".as_slice(), &long(b'l'), b"\na rl\n"].concat(),
        [b"a.\n\n".as_slice(), &long(b' '), b"\nshow\n"].concat(),
        [b"a.\n\norder a ".as_slice(), &long(b'r'), b"\norder a rl\nshow"].concat(),
        [b"a.\n\norder a ".as_slice(), &long(b'r'), b"x\nstep a\n"].concat(),
        [b"a.\n\nstep ".as_slice(), &long(b'a'), b"\nshow\n"].concat(),
        [b"a.\n\nway a ".as_slice(), &b"0,0 ".repeat(1 << 18), b"\nshow\n"].concat(),
        [b"a.\n\nway a 1,".as_slice(), &long(b'0'), b"\nway a ", &long(b'9'), b",0\nshow\n"].concat(),
        [b"a.\n\norder a rl\ntick ".as_slice(), &long(b'0'), b"4 d 2\ntick 1 d ", &long(b'1')].concat(),
        b"\n".repeat(1 << 18),
        [b"a.\n\n".as_slice(), &b"a rl\n".repeat(1 << 16)].concat(),
    ]
}
