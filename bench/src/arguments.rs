//! The arguments of the programs: words, options with a number or a text,
//! and options alone. `--help` and `-h` are taken by all.

use std::collections::HashMap;
use std::env;
use std::error::Error;
use std::fmt;
use std::io::{self, Write};
use std::process::ExitCode;

/// The status of a program that could not do its work.
const FAILED: u8 = 2;

/// What a program takes.
pub struct Usage {
    /// How it is called and what it does, in lines.
    pub help: &'static str,
    /// The options that take a number.
    pub numbers: &'static [&'static str],
    /// The options that take a text.
    pub texts: &'static [&'static str],
    /// The options that stand alone.
    pub alone: &'static [&'static str],
}

impl Usage {
    /// Words only.
    pub const fn words(help: &'static str) -> Self {
        Usage {
            help,
            numbers: &[],
            texts: &[],
            alone: &[],
        }
    }
}

/// The arguments are not what the program takes.
#[derive(Debug)]
pub struct Wrong(String);

impl fmt::Display for Wrong {
    fn fmt(&self, out: &mut fmt::Formatter) -> fmt::Result {
        out.write_str(&self.0)
    }
}

impl Error for Wrong {}

pub fn wrong(what: &str) -> Box<dyn Error> {
    Box::new(Wrong(what.to_string()))
}

/// Runs a program on its arguments and ends it. Help is written to standard
/// output; what went wrong is told on standard error.
pub fn run(
    usage: &Usage,
    work: impl FnOnce(&Arguments) -> Result<ExitCode, Box<dyn Error>>,
) -> ExitCode {
    let given: Vec<String> = env::args().skip(1).collect();
    if asks_for_help(&given) {
        return match io::stdout().write_all(usage.help.as_bytes()) {
            Ok(()) => ExitCode::SUCCESS,
            Err(_) => ExitCode::from(FAILED),
        };
    }
    let arguments = Arguments::new(given.into_iter(), usage);
    let result = match &arguments {
        Ok(arguments) => work(arguments),
        Err(what) => Err(wrong(what)),
    };
    result.unwrap_or_else(|error| {
        eprintln!("{error}");
        if error.is::<Wrong>() {
            eprint!("{}", usage.help);
        }
        ExitCode::from(FAILED)
    })
}

fn asks_for_help(given: &[String]) -> bool {
    given.iter().any(|word| word == "--help" || word == "-h")
}

pub struct Arguments {
    pub words: Vec<String>,
    numbers: HashMap<String, u64>,
    texts: HashMap<String, String>,
    alone: Vec<String>,
}

impl Arguments {
    /// Sorts the arguments. Only the options of the usage are taken; `-` is
    /// a word.
    fn new(mut given: impl Iterator<Item = String>, usage: &Usage) -> Result<Self, String> {
        let mut arguments = Arguments {
            words: Vec::new(),
            numbers: HashMap::new(),
            texts: HashMap::new(),
            alone: Vec::new(),
        };
        while let Some(argument) = given.next() {
            let word = argument.as_str();
            if usage.numbers.contains(&word) {
                let number = given.next().and_then(|text| text.parse().ok());
                let number = number.ok_or(format!("{word} takes a number"))?;
                arguments.numbers.insert(argument, number);
            } else if usage.texts.contains(&word) {
                let text = given.next().ok_or(format!("{word} takes a word"))?;
                arguments.texts.insert(argument, text);
            } else if usage.alone.contains(&word) {
                arguments.alone.push(argument);
            } else if word.starts_with('-') && word != "-" {
                return Err(format!("unknown option {word}"));
            } else {
                arguments.words.push(argument);
            }
        }
        Ok(arguments)
    }

    /// The number of an option, or what stands for it if it is not given.
    pub fn number(&self, option: &str, otherwise: u64) -> u64 {
        self.numbers.get(option).copied().unwrap_or(otherwise)
    }

    /// The text of an option.
    pub fn text(&self, option: &str) -> Option<&str> {
        self.texts.get(option).map(String::as_str)
    }

    pub fn has(&self, option: &str) -> bool {
        self.alone.iter().any(|given| given == option)
    }

    /// The first word, and the others.
    pub fn program(&self) -> Result<(&str, &[String]), Box<dyn Error>> {
        match self.words.split_first() {
            Some((program, others)) => Ok((program, others)),
            None => Err(wrong("PROGRAM is missing")),
        }
    }

    /// Nothing but options was given.
    pub fn no_words(&self) -> Result<(), Box<dyn Error>> {
        no_more(&self.words)
    }
}

/// None of these words is taken.
pub fn no_more(words: &[String]) -> Result<(), Box<dyn Error>> {
    match words {
        [] => Ok(()),
        [word, ..] => Err(wrong(&format!("{word} is a word too many"))),
    }
}

#[cfg(test)]
mod tests {
    use super::*;

    const USAGE: Usage = Usage {
        numbers: &["--seed"],
        texts: &["--file"],
        alone: &["--left"],
        ..Usage::words("usage: one")
    };

    fn sorted(line: &str) -> Result<Arguments, String> {
        Arguments::new(line.split_whitespace().map(String::from), &USAGE)
    }

    #[test]
    fn words_and_options_are_sorted() {
        let arguments = sorted("one --seed 7 two --file F - --left").unwrap();
        assert_eq!(arguments.words, ["one", "two", "-"]);
        assert_eq!(arguments.number("--seed", 1), 7);
        assert_eq!(arguments.text("--file"), Some("F"));
        assert!(arguments.has("--left"));
        let none = sorted("one").unwrap();
        assert_eq!(none.number("--seed", 1), 1);
        assert_eq!(none.text("--file"), None);
        assert!(!none.has("--left"));
    }

    #[test]
    fn others_are_wrong() {
        for line in ["--seed", "--seed x", "--file", "--other 1", "-x"] {
            assert!(sorted(line).is_err(), "{line}");
        }
        assert!(sorted("").unwrap().program().is_err());
        assert!(sorted("one").unwrap().no_words().is_err());
    }
}
