//! Texts whose answers were worked out by hand, for the models of the two programs.

use crate::model::{judge, play};
use crate::report::Group;
use crate::texts::Commands;

struct Example {
    input: &'static [u8],
    output: &'static str,
}

const fn example(input: &'static [u8], output: &'static str) -> Example {
    Example { input, output }
}

const JUDGE: &[Example] = &[
    example(b"", "refused 1\n"),
    example(b"\n", "refused 1\n"),
    example(b"\r\n..\n", "refused 1\n"),
    example(b"a..b\n....", ""),
    example(b"a..b\n....\n\n", ""),
    // Wrong steps: another's bay, own bay between, over the edge, and ends outside.
    example(b"a..b\n....\n\nrl\n", "route ok\n"),
    example(b"a..b\n....\n\nrrrlll\nl\nrr", "2\n1\nrefused 3\n"),
    example(b"a..b\n....\n\nrlrl\n\n", "1\nroute ok\n"),
    example(b"a..b\n....\n\nu\na l\na r\na drul\na dlur", "0\n0\n1\nroute ok\n1\n"),
    example(b"a#.b\n....\n\nrl\nb ldru\nb rdlu", "0\nroute ok\n0\n"),
    // Prefixes: exactly one blank; the rest of the lines keep counting.
    example(
        b"ab\n..\n\nb du\ndu\na  du\na\nb \nd \n",
        "route ok\nroute ok\nrefused 4 at 5\nrefused 4 at 6\nroute ok\nrefused 3\n",
    ),
    example(b"a\n.\n\n\n\n", "route ok\nrefused 3\n"),
    example(b"a.\r\n..\r\n\r\nrl\r\nrl\r", "route ok\nrefused 4 at 4\n"),
    example(b"a.\n..\n\na r\tl\na rL\n", "refused 4 at 3\nrefused 4 at 4\n"),
    // Fields that can't be read.
    example(b"a.\n...\n\n", "refused 4 at 1\n"),
    example(b"a.\n.q\n\n", "refused 4 at 1\n"),
    example(b"a.\n.a\n\n", "refused 4 at 1\n"),
    example(b"..\nc.\nb.\n\n", "refused 4 at 2\n"),
    example(b"b.\na.\n\nrl\nrl", "route ok\nroute ok\n"),
    example(b"c.\n.a\n?.\n\n", "refused 4 at 2\n"),
    example(b"A\n", "refused 4 at 0\n"),
    example(b"\xff\n", "refused 4 at 0\n"),
];

const PLAY: &[Example] = &[
    example(b"", "refused 1\n"),
    example(b"ab\n..", ""),
    example(b"..\n.#\n\nshow\nstep a\norder a\n", "..\n.#\nrefused 3\nrefused 3\n"),
    example(
        b"a..b\n....\n\nshow\n order  a rrddll \norder a rrll\nstep a\nshow\nstep a\narrive a\narrive a\nshow\n",
        "A..B\n....\nnot\ngranted\ngranted\nAA.B\n....\nnot\ngranted\nnot\naA.B\n....\n",
    ),
    // The second shuttle would close a ring though its square is free.
    example(
        b"a..b\n....\n\norder a rrll\norder b llrr\nstep a\narrive a\nstep b\nstep a\nshow",
        "granted\ngranted\ngranted\ngranted\nnot\ngranted\naAAB\n....\n",
    ),
    example(b"a.\n\norder a\norder a ud\norder a l\norder a rl\norder a rl\n", "granted\nnot\nnot\ngranted\nnot\n"),
    example(
        b"a.\n\n\n   \nmove a\nstep\nstep a a\nstep A\nstep q",
        "refused 4 at 4\nrefused 4 at 5\nrefused 4 at 6\nrefused 4 at 7\nrefused 4 at 8\n",
    ),
    example(
        b"a.\n\nstep ab\nshow a\norder\norder a r l",
        "refused 4 at 2\nrefused 4 at 3\nrefused 4 at 4\nrefused 4 at 5\n",
    ),
    example(
        b"a.\n\nstep b\norder b rl\narrive p\norder b x\nstep\ta\n",
        "refused 3\nrefused 3\nrefused 3\nrefused 4 at 5\nrefused 4 at 6\n",
    ),
    example(b"a.\r\n\r\nshow\r\nshow\r", "A.\nrefused 4 at 3\n"),
    // Ways: from the bay wherever the shuttle is, into letters that an order takes.
    example(
        b"a..b\n.#..\n....\n\nway a\nway a 0,0\nway a 2,2\nway a 2,2 2,0\nway a 1,1\nway a 3,0\nway b 3,0 3,1\n",
        "\n\nrrddlluu\nrrdduull\nnone\nnone\ndu\n",
    ),
    example(
        b"a..\n\nway a 2,0\norder a rrll\nstep a\nway  a  02,000 \nshow\n",
        "rrll\ngranted\ngranted\nrrll\nAA.\n",
    ),
    example(
        b"a..\n\nway a 3,0\nway a 0,1\nway a 1,0 1,0 1,0 1,0 1,0 1,0 1,0 1,0\nway a 0,0 0,0 0,0 0,0 0,0 0,0 0,0 0,0 0,0",
        "refused 5\nrefused 5\nrl\nrefused 5\n",
    ),
    example(
        b"a..\n\nway\nway a 1\nway a 1,\nway a ,1\nway a 1,0,0\nway a -1,0\nway a 1, 0\nway A 1,0\nway q\nway a1,0",
        "refused 4 at 2\nrefused 4 at 3\nrefused 4 at 4\nrefused 4 at 5\nrefused 4 at 6\nrefused 4 at 7\n\
         refused 4 at 8\nrefused 4 at 9\nrefused 4 at 10\nrefused 4 at 11\n",
    ),
    // What can't be read is told before a shuttle that isn't there, and that before a square outside.
    example(
        b"a..\n\nway b 9,9\nway b 9,x\nway a 9,9 x\nway b\nway a 99999999999999999999999,0",
        "refused 3\nrefused 4 at 3\nrefused 4 at 4\nrefused 3\nrefused 5\n",
    ),
    // Ticks: one step each, an arrival so many ticks after it.
    example(b"a.\n\ntick 2 d 1\norder a rl\ntick 4 d 1\nshow\n", "-\n-\ngranted\na\na\n-\n-\nA.\n"),
    example(b"a.\n\norder a rl\ntick 5 d 3\nshow\ntick 2 d 3\nshow", "granted\na\n-\n-\na\n-\nAA\n-\n-\nA.\n"),
    // The ages of steps go on over commands, and an arrival is due at once if a later command asks for fewer ticks.
    example(b"a.\n\norder a rl\ntick 1 d 9\ntick 1 d 9\ntick 1 d 9\ntick 1 d 3\n", "granted\na\n-\n-\na\n"),
    // A step by hand is one tick old in the next tick, and an arrival by hand counts as come.
    example(b"a.\n\norder a rl\nstep a\ntick 2 d 2\n", "granted\ngranted\n-\na\n"),
    example(b"a.\n\norder a rl\nstep a\narrive a\ntick 2 d 2\narrive a\n", "granted\ngranted\ngranted\na\n-\ngranted\n"),
    // Of two that have waited equally long the lower one goes, then the one that has waited longer.
    example(b"a.\nb.\n\norder a rl\norder b rl\ntick 6 d 1\n", "granted\ngranted\na\nb\na\nb\n-\n-\n"),
    example(b"..\n\ntick 1 d 1\ntick 0002 d 01000\n", "-\n-\n-\n"),
    example(
        b"a.\n\ntick\ntick 1\ntick 1 d\ntick 1 1\ntick 0 d 1\ntick 10001 d 1\ntick 1 d 0\ntick 1 d 1001\ntick 1 d 1 1",
        "refused 4 at 2\nrefused 4 at 3\nrefused 4 at 4\nrefused 4 at 5\nrefused 4 at 6\nrefused 4 at 7\n\
         refused 4 at 8\nrefused 4 at 9\nrefused 4 at 10\n",
    ),
    example(
        b"a.\n\ntick -1 d 1\ntick +1 d 1\ntick 1 D 1\ntick 1 d 18446744073709551617\ntick a d 1\n",
        "refused 4 at 2\nrefused 4 at 3\nrefused 4 at 4\nrefused 4 at 5\nrefused 4 at 6\n",
    ),
];

/// Both programs on sizes and lengths at their limits.
fn limits() -> Vec<(Vec<u8>, String)> {
    let row = |across: usize| [b"a".as_slice(), &vec![b'.'; across - 1], b"\n"].concat();
    let rows = |down: usize| [b"a\n".as_slice(), &b".\n".repeat(down - 1)].concat();
    let order = |steps: usize| [b"a.\n\na ".as_slice(), &b"rl".repeat(steps)[..steps], b"\n"].concat();
    let text = |field: Vec<u8>| [field, b"\na \n".to_vec()].concat();
    vec![
        (text(row(64)), "route ok\n".to_string()),
        (text(row(65)), "refused 1\n".to_string()),
        (text(rows(64)), "route ok\n".to_string()),
        (text(rows(65)), "refused 1\n".to_string()),
        ([rows(65), b"?\n".to_vec()].concat(), "refused 4 at 65\n".to_string()),
        (order(256), "1\n".to_string()),
        (order(257), "refused 3\n".to_string()),
        (order(258), "refused 3\n".to_string()),
        ([order(258), b"a r?".to_vec()].concat(), "refused 3\nrefused 4 at 3\n".to_string()),
    ]
}

pub fn all() -> Vec<Group> {
    let judged = JUDGE.iter().map(|example| (example.input.to_vec(), example.output.to_string())).chain(limits());
    let played = PLAY.iter().map(|example| (example.input.to_vec(), example.output.to_string()));
    let with_all = |text: &[u8]| play(text, Commands { way: true, tick: true });
    vec![group("judge by hand", judged, judge), group("play by hand", played, with_all)]
}

fn group(name: &str, examples: impl Iterator<Item = (Vec<u8>, String)>, model: impl Fn(&[u8]) -> Vec<u8>) -> Group {
    let mut count = 0;
    let failure = examples.inspect(|_| count += 1).find_map(|(input, output)| {
        let printed = model(&input);
        let told = || format!("{} gives {}, by hand {output:?}", input.escape_ascii(), printed.escape_ascii());
        (printed != output.as_bytes()).then(told)
    });
    Group { name: name.to_string(), done: format!("{count} texts"), failure }
}
