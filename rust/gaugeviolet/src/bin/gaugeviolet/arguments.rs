//! The arguments of a subcommand: files, what is asked of them, and options.

use std::ffi::{OsStr, OsString};

use crate::command::{Command, Failure};

/// The arguments after the name of a subcommand.
pub struct Arguments {
    /// All that are no options: files, and after them what is asked.
    words: Vec<OsString>,
    options: Vec<(String, OsString)>,
}

/// What was asked of a subcommand.
pub enum Asked {
    Run(Arguments),
    Help,
}

impl Arguments {
    /// A file that the command takes in any case.
    pub fn file(&self, at: usize) -> &OsStr {
        &self.words[at]
    }

    /// A file that may be left out.
    pub fn optional_file(&self, at: usize) -> Option<&OsStr> {
        self.words.get(at).map(OsString::as_os_str)
    }

    /// What stands after the files, as many as the command takes in any case.
    pub fn after(&self, files: usize) -> &[OsString] {
        &self.words[files..]
    }

    /// The value of an option.
    pub fn option(&self, name: &str) -> Option<&OsStr> {
        let given = self.options.iter().find(|(given, _)| given == name);
        given.map(|(_, value)| value.as_os_str())
    }
}

/// Takes the arguments apart. After `--` none is an option, and `-` alone is none: standard input.
pub fn parse(command: &Command, arguments: &[OsString]) -> Result<Asked, Failure> {
    let usage = command.usage();
    let is_option = |name: &str| command.options.iter().any(|&(option, _)| option == name);
    let mut parsed = Arguments {
        words: Vec::new(),
        options: Vec::new(),
    };
    let mut rest = arguments.iter();
    while let Some(argument) = rest.next() {
        match argument.to_str() {
            Some("--") => parsed.words.extend(rest.by_ref().cloned()),
            Some("--help" | "-h") => return Ok(Asked::Help),
            Some(name) if is_option(name) => {
                let value = rest.next().cloned();
                let none = || Failure::usage(&format!("{name} needs a value"), &usage);
                parsed
                    .options
                    .push((name.to_string(), value.ok_or_else(none)?));
            }
            Some(name) if name.starts_with('-') && name != "-" => {
                return Err(Failure::usage(&format!("{name} is no option"), &usage));
            }
            _ => parsed.words.push(argument.clone()),
        }
    }
    match wrong_words(command, &parsed.words) {
        Some(why) => Err(Failure::usage(&why, &usage)),
        None => Ok(Asked::Run(parsed)),
    }
}

fn wrong_words(command: &Command, words: &[OsString]) -> Option<String> {
    let (least, most) = command.takes;
    if words.len() < least {
        return Some(format!("{} needs {}", command.name, command.arguments));
    }
    if words.len() > most {
        return Some(format!(
            "{} takes no more than {}",
            command.name, command.arguments
        ));
    }
    let standard_input = words.iter().filter(|name| *name == "-");
    (standard_input.count() > 1).then(|| "only one file can be standard input".to_string())
}
