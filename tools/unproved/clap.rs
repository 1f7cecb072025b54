//! What stands for Rattle's `clap` in plain Rust: options with `--` that are given once, some of which have a value.

use crate::rstd::alloc::{AllocError, Global};
use crate::rstd::String;

#[derive(Clone, Copy, PartialEq, Eq)]
pub enum ArgAction {
    SetTrue,
    Set,
}

pub struct Arg<'a> {
    name: &'a str,
    long: &'a str,
    action: ArgAction,
}

impl<'a> Arg<'a> {
    pub fn new(_: Global, name: &'a str) -> Arg<'a> {
        Arg { name, long: name, action: ArgAction::Set }
    }

    pub fn long(self, long: &'a str) -> Arg<'a> {
        Arg { long, ..self }
    }

    pub fn action(self, action: ArgAction) -> Arg<'a> {
        Arg { action, ..self }
    }
}

pub struct Command<'a> {
    args: std::vec::Vec<Arg<'a>>,
}

pub struct ArgMatches<'a> {
    found: std::vec::Vec<(&'a str, &'a str)>,
}

pub mod error {
    #[derive(Clone, Copy, PartialEq, Eq)]
    pub enum ErrorKind {
        OutOfMemory,
        Other,
    }
}

pub struct Error;

impl Error {
    pub fn kind(&self) -> error::ErrorKind {
        error::ErrorKind::Other
    }
}

impl<'a> Command<'a> {
    pub fn new(_: Global, _: &'a str) -> Command<'a> {
        Command { args: std::vec::Vec::new() }
    }

    pub fn no_binary_name(self, _: bool) -> Command<'a> {
        self
    }

    pub fn disable_help_flag(self, _: bool) -> Command<'a> {
        self
    }

    pub fn arg(mut self, arg: Arg<'a>) -> Result<Command<'a>, AllocError> {
        self.args.push(arg);
        Ok(self)
    }

    pub fn try_get_matches_from(self, words: &'a [String]) -> Result<ArgMatches<'a>, Error> {
        let (mut found, mut words) = (std::vec::Vec::<(&str, &str)>::new(), words.iter());
        while let Some(word) = words.next() {
            let option = word.as_str().strip_prefix("--").ok_or(Error)?;
            let (long, value) = match option.split_once('=') {
                Some((long, value)) => (long, Some(value)),
                None => (option, None),
            };
            let arg = self.args.iter().find(|arg| arg.long == long).ok_or(Error)?;
            let value = match (arg.action, value) {
                (ArgAction::SetTrue, None) => "true",
                (ArgAction::SetTrue, Some(_)) => return Err(Error),
                (ArgAction::Set, Some(value)) => value,
                (ArgAction::Set, None) => words.next().ok_or(Error)?.as_str(),
            };
            if found.iter().any(|(name, _)| *name == arg.name) {
                return Err(Error);
            }
            found.push((arg.name, value));
        }
        Ok(ArgMatches { found })
    }
}

impl<'a> ArgMatches<'a> {
    pub fn get_str(&self, name: &str) -> Option<&'a str> {
        self.found.iter().find(|(found, _)| *found == name).map(|(_, value)| *value)
    }
}
