//! The words of a command line: names, and the options that the command's row has. `--` ends the options; `-` is a name, standard input's.

use std::ffi::{OsStr, OsString};
use std::os::unix::ffi::{OsStrExt, OsStringExt};

use crate::commands::{Choice, Command};
use crate::output::{shown, Trouble};

pub struct Asked {
    pub command: &'static Command,
    pub names: Vec<OsString>,
    given: Vec<(&'static str, OsString)>,
}

impl Asked {
    /// What a command is asked; nothing where its help is.
    pub fn of(command: &'static Command, words: &[OsString]) -> Result<Option<Asked>, Trouble> {
        let mut asked = Asked {
            command,
            names: Vec::new(),
            given: Vec::new(),
        };
        let mut words = words.iter();
        while let Some(word) = words.next() {
            match word.as_bytes() {
                b"--" => asked.names.extend(words.by_ref().cloned()),
                b"--help" | b"-h" => return Ok(None),
                [b'-', _, ..] => asked.option(word, &mut words)?,
                _ => asked.names.push(word.clone()),
            }
        }
        let (least, most) = command.names;
        if asked.names.len() < least || most < asked.names.len() {
            return Err(asked.wrong_use());
        }
        Ok(Some(asked))
    }

    /// `--table TABLE` or `--table=TABLE`; `-q`.
    fn option<'a>(&mut self, word: &OsStr, rest: &mut impl Iterator<Item = &'a OsString>) -> Result<(), Trouble> {
        let bytes = word.as_bytes();
        let (name, joined) = match bytes.iter().position(|&byte| byte == b'=') {
            Some(at) if bytes.starts_with(b"--") => (&bytes[..at], Some(OsString::from_vec(bytes[at + 1..].to_vec()))),
            _ => (bytes, None),
        };
        let known = |choice: &&Choice| choice.name.as_bytes() == name && (choice.value.is_some() || joined.is_none());
        let command = self.command;
        let Some(choice) = command.options.iter().find(known) else {
            let (word, name) = (shown(word), command.name);
            return Err(Trouble(format!(
                "{name} has no option '{word}'; 'mirvashol {name} --help' says what there is, and '--' stands before names"
            )));
        };
        let value = match (choice.value, joined) {
            (None, _) => OsString::new(),
            (Some(_), Some(value)) => value,
            (Some(what), None) => rest.next().cloned().ok_or_else(|| {
                let (name, option) = (command.name, choice.name);
                Trouble(format!(
                    "{option} of {name} wants a {what}; 'mirvashol {name} --help' says more"
                ))
            })?,
        };
        if self.value(choice.name).is_some() {
            return Err(Trouble(format!("{} is given twice", choice.name)));
        }
        self.given.push((choice.name, value));
        Ok(())
    }

    pub fn quiet(&self) -> bool {
        self.value("-q").is_some()
    }

    /// What was given for an option.
    pub fn value(&self, option: &str) -> Option<&OsStr> {
        let (_, value) = self.given.iter().find(|(name, _)| *name == option)?;
        Some(value)
    }

    pub fn wrong_use(&self) -> Trouble {
        let (line, name) = (self.command.line(), self.command.name);
        Trouble(format!(
            "{name} is used so: {line}; 'mirvashol {name} --help' says more"
        ))
    }
}
