//! The command line.

use crate::tally::Section;
use crate::wrong::Wrong;

/// How the checker is called.
pub const USAGE: &str = "\
usage: checker [--seed N] [--long] [--only SECTION]... [--wrong NAME | --show-caught]
  --seed N        what random inputs depend on (default 1)
  --long          the longer run
  --only SECTION  trials, texts, endings, lines, lent, random, program, small,
                  evidence, early or sessions; may come again
  --wrong NAME    expect one wrong answer: the run must report a difference
  --show-caught   only show that each wrong answer is caught";

/// What the command line says.
#[derive(Debug)]
pub struct Options {
    /// What random inputs depend on.
    pub seed: u64,
    /// The longer run?
    pub long: bool,
    /// The sections to run.
    pub sections: Vec<Section>,
    /// A wrong answer to expect.
    pub wrong: Option<Wrong>,
    /// Only show that each wrong answer is caught?
    pub show_caught: bool,
}

/// The section of a name.
fn section(name: &str) -> Option<Section> {
    Section::ALL.into_iter().find(|section| section.name() == name)
}

/// The wrong answer of a name, or the names that there are.
fn wrong(name: &str) -> Result<Wrong, String> {
    let names = || Wrong::all().iter().map(Wrong::name).collect::<Vec<_>>().join("\n  ");
    Wrong::named(name).ok_or_else(|| format!("no wrong answer {name:?}; there are\n  {}", names()))
}

impl Options {
    /// Reads the arguments after the program's name.
    pub fn read(mut arguments: impl Iterator<Item = String>) -> Result<Options, String> {
        let mut options =
            Options { seed: 1, long: false, sections: Vec::new(), wrong: None, show_caught: false };
        while let Some(argument) = arguments.next() {
            let mut value = || arguments.next().ok_or(USAGE.to_string());
            match argument.as_str() {
                "--seed" => options.seed = value()?.parse().map_err(|_| USAGE.to_string())?,
                "--long" => options.long = true,
                "--only" => options.sections.push(section(&value()?).ok_or(USAGE.to_string())?),
                "--wrong" => options.wrong = Some(wrong(&value()?)?),
                "--show-caught" => options.show_caught = true,
                _ => return Err(USAGE.to_string()),
            }
        }
        if options.sections.is_empty() {
            options.sections = Section::ALL.to_vec();
        }
        Ok(options)
    }
}
