//! The command line: words, and options with a value each.

use crate::compare::Kind;
use crate::texts::Commands;

pub struct Options {
    words: Vec<String>,
    pub seed: u64,
    pub cases: Option<u64>,
    pub kind: Option<Kind>,
    pub hall: Option<u64>,
    pub only: Option<u64>,
    pub commands: Commands,
}

impl Default for Options {
    fn default() -> Options {
        let commands = Commands { way: true, tick: true };
        Options { words: Vec::new(), seed: 1, cases: None, kind: None, hall: None, only: None, commands }
    }
}

impl Options {
    pub fn read(mut args: impl Iterator<Item = String>) -> Result<Options, String> {
        let mut options = Options::default();
        while let Some(word) = args.next() {
            if !word.starts_with("--") {
                options.words.push(word);
                continue;
            }
            let value = args.next().ok_or(format!("{word} wants a value"))?;
            match word.as_str() {
                "--seed" => options.seed = number(&value)?,
                "--cases" => options.cases = Some(number(&value)?),
                "--hall" => options.hall = Some(number(&value)?),
                "--only" => options.only = Some(number(&value)?),
                "--without" if value == "way" => options.commands.way = false,
                "--without" if value == "tick" => options.commands.tick = false,
                "--kind" => options.kind = Some(value.parse()?),
                _ => return Err(format!("unknown option {word} {value}")),
            }
        }
        if options.hall.is_some() && options.kind.is_none() {
            return Err("--hall wants --kind".to_string());
        }
        Ok(options)
    }

    pub fn words(&self) -> Vec<&str> {
        self.words.iter().map(String::as_str).collect()
    }
}

pub fn number(value: &str) -> Result<u64, String> {
    value.parse().map_err(|_| format!("{value} is no number"))
}
