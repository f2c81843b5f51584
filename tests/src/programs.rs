//! Runs the two programs on texts and compares what they print with the models, byte for byte.

use crate::model;
use crate::report::Group;
use crate::texts::{self, Commands, Program};
use shared::random::Random;
use std::fs::{self, File};
use std::io;
use std::path::{Path, PathBuf};
use std::process::{Child, Command, ExitStatus, Stdio};
use std::time::{Duration, Instant};

/// A program that has not ended by then hangs.
const LONGEST: Duration = Duration::from_secs(20);

pub struct Programs {
    pub judge: PathBuf,
    pub play: PathBuf,
    folder: PathBuf,
}

/// What a program did.
struct Ended {
    status: ExitStatus,
    output: Vec<u8>,
    errors: Vec<u8>,
}

impl Programs {
    /// The texts and what is printed go through files, so that neither side waits for the other.
    pub fn new(judge: &str, play: &str) -> io::Result<Programs> {
        let folder = std::env::temp_dir().join(format!("trials-{}", std::process::id()));
        fs::create_dir_all(&folder)?;
        Ok(Programs { judge: fs::canonicalize(judge)?, play: fs::canonicalize(play)?, folder })
    }

    pub fn all(&self, commands: Commands, seed: u64, count: u64, only: Option<u64>) -> Vec<Group> {
        let mut groups = Vec::new();
        for program in [Program::Judge, Program::Play(commands)] {
            groups.push(self.random_texts(program, seed, count, only));
            if only.is_none() {
                groups.push(self.long_lines(program));
                groups.push(self.command_line(program));
            }
        }
        groups
    }

    fn random_texts(&self, program: Program, seed: u64, count: u64, only: Option<u64>) -> Group {
        let numbers = only.map_or(0..count, |number| number..number + 1);
        let (mut texts, mut lines) = (0, 0);
        let failure = numbers.into_iter().find_map(|number| {
            let text = random_text(program, seed, number);
            texts += 1;
            lines += expected(program, &text).iter().filter(|&&byte| byte == b'\n').count();
            let again = format!("again with --seed {seed} --only {number}");
            let by_name = number % 3 == 0;
            self.compare(program, &text, by_name).err().map(|fault| format!("text {number}: {fault}\n{again}"))
        });
        let done = format!("{texts} texts, {lines} printed lines compared");
        Group { name: format!("{}, random texts", program.name()), done, failure }
    }

    fn long_lines(&self, program: Program) -> Group {
        let texts = texts::long_lines();
        let fault = |(number, text): (usize, &Vec<u8>)| {
            self.compare(program, text, false).err().map(|fault| format!("long text {number}: {fault}"))
        };
        let failure = texts.iter().enumerate().find_map(fault);
        Group { name: format!("{}, long texts", program.name()), done: format!("{} texts", texts.len()), failure }
    }

    fn compare(&self, program: Program, text: &[u8], by_name: bool) -> Result<(), String> {
        let ended = self.run_on(program, text, by_name).map_err(|error| format!("it can't be run: {error}"))?;
        let expected = expected(program, text);
        if !ended.status.success() {
            return Err(format!("it ended with {}", ended.status));
        }
        match first_difference(&ended.output, &expected) {
            Some(told) => Err(format!("{told}\nthe text is {}", shortened(text))),
            None => Ok(()),
        }
    }

    fn run_on(&self, program: Program, text: &[u8], by_name: bool) -> io::Result<Ended> {
        let input = self.folder.join("input");
        fs::write(&input, text)?;
        let mut command = Command::new(self.path(program));
        if by_name {
            self.run(command.arg(&input).stdin(Stdio::null()))
        } else {
            self.run(command.stdin(File::open(&input)?))
        }
    }

    fn path(&self, program: Program) -> &Path {
        match program {
            Program::Judge => &self.judge,
            Program::Play(_) => &self.play,
        }
    }

    fn run(&self, command: &mut Command) -> io::Result<Ended> {
        let (output, errors) = (self.folder.join("output"), self.folder.join("errors"));
        let mut child = command.stdout(File::create(&output)?).stderr(File::create(&errors)?).spawn()?;
        let status = wait(&mut child)?;
        Ok(Ended { status, output: fs::read(output)?, errors: fs::read(errors)? })
    }

    /// Options, files that aren't there, and standard input that is closed.
    fn command_line(&self, program: Program) -> Group {
        let failure = self.command_line_fault(program).unwrap_or_else(|error| Some(error.to_string()));
        let done = "help, an unknown option, a missing file, closed input, a reason for a refusal".to_string();
        Group { name: format!("{}, command line", program.name()), done, failure }
    }

    fn command_line_fault(&self, program: Program) -> io::Result<Option<String>> {
        let path = self.path(program);
        let with = |word: &Path| self.run(Command::new(path).arg(word).stdin(Stdio::null()));
        let help = with(Path::new("--help"))?;
        if !help.status.success() || help.output.is_empty() {
            return Ok(Some(format!("--help ended with {} and {} bytes", help.status, help.output.len())));
        }
        for word in [Path::new("--unknown-option"), &self.folder.join("missing")] {
            let ended = with(word)?;
            if ended.status.code() != Some(1) || ended.errors.is_empty() || !ended.output.is_empty() {
                return Ok(Some(format!(
                    "{} ended with {}, {} bytes of output and {} of errors",
                    word.display(),
                    ended.status,
                    ended.output.len(),
                    ended.errors.len()
                )));
            }
        }
        let closed = self.run(Command::new("sh").args(["-c", "exec \"$0\" <&-"]).arg(path).stdin(Stdio::null()))?;
        if !closed.status.success() || closed.output != b"refused 1\n" {
            return Ok(Some(format!("closed input gave {} and {}", closed.status, closed.output.escape_ascii())));
        }
        let refused = self.run_on(program, b"?", false)?;
        let silent = refused.errors.is_empty().then(|| "a refused field has no reason on standard error".to_string());
        Ok(silent)
    }
}

impl Drop for Programs {
    fn drop(&mut self) {
        // What can't be removed is left to the system's own clearing of temporary files.
        let _ = fs::remove_dir_all(&self.folder);
    }
}

pub fn random_text(program: Program, seed: u64, number: u64) -> Vec<u8> {
    let mut random = Random::for_case(seed, 2 * number + u64::from(program != Program::Judge));
    texts::text(&mut random, program)
}

pub fn expected(program: Program, text: &[u8]) -> Vec<u8> {
    match program {
        Program::Judge => model::judge(text),
        Program::Play(commands) => model::play(text, commands),
    }
}

fn wait(child: &mut Child) -> io::Result<ExitStatus> {
    let begun = Instant::now();
    loop {
        if let Some(status) = child.try_wait()? {
            return Ok(status);
        }
        if begun.elapsed() > LONGEST {
            child.kill()?;
            child.wait()?;
            return Err(io::Error::new(io::ErrorKind::TimedOut, format!("no end after {LONGEST:?}")));
        }
        std::thread::sleep(Duration::from_micros(200));
    }
}

fn first_difference(printed: &[u8], expected: &[u8]) -> Option<String> {
    if printed == expected {
        return None;
    }
    let (is, should) = (printed.split_inclusive(|&b| b == b'\n'), expected.split_inclusive(|&b| b == b'\n'));
    let same = is.clone().zip(should.clone()).take_while(|(is, should)| is == should).count();
    let told = |line: Option<&[u8]>| line.map_or("nothing".to_string(), shortened);
    Some(format!("printed line {same} is {}, should be {}", told(is.clone().nth(same)), told(should.clone().nth(same))))
}

fn shortened(bytes: &[u8]) -> String {
    let shown = bytes[..bytes.len().min(2000)].escape_ascii();
    format!("\"{shown}\"{}", if bytes.len() > 2000 { " and so on" } else { "" })
}
