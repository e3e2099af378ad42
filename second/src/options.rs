//! The options of the commands, and how a command ends other than well.

use std::io;

/// How a command ends other than well.
pub enum Trouble {
    /// One line on standard error, and this exit status.
    Line(u8, String),
    /// The exit status alone: everything was said.
    Said(u8),
    /// Standard output could not be written.
    Output(io::Error),
}

impl From<io::Error> for Trouble {
    fn from(error: io::Error) -> Trouble {
        Trouble::Output(error)
    }
}

pub fn usage(line: impl Into<String>) -> Trouble {
    Trouble::Line(2, line.into())
}

/// The options of a command: `--name value` pairs, and flags without a value.
pub struct Options {
    given: Vec<(String, String)>,
}

impl Options {
    pub fn read(words: &[String], values: &[&str], flags: &[&str]) -> Result<Options, Trouble> {
        let mut given: Vec<(String, String)> = Vec::new();
        let mut words = words.iter();
        while let Some(name) = words.next() {
            if given.iter().any(|(earlier, _)| earlier == name) {
                return Err(usage(format!("{name} is given twice")));
            }
            let value = if flags.contains(&name.as_str()) {
                String::new()
            } else if values.contains(&name.as_str()) {
                let value = words.next();
                value
                    .cloned()
                    .ok_or_else(|| usage(format!("{name} needs a value")))?
            } else {
                return Err(usage(format!("no option {name} here; see second --help")));
            };
            given.push((name.clone(), value));
        }
        Ok(Options { given })
    }

    pub fn text(&self, name: &str) -> Option<&str> {
        let mut given = self.given.iter();
        given
            .find(|(given, _)| given == name)
            .map(|(_, value)| value.as_str())
    }

    pub fn needed(&self, name: &str) -> Result<&str, Trouble> {
        self.text(name)
            .ok_or_else(|| usage(format!("{name} is needed")))
    }

    pub fn number(&self, name: &str, default: Option<u64>) -> Result<u64, Trouble> {
        let text = match (self.text(name), default) {
            (None, Some(default)) => return Ok(default),
            _ => self.needed(name)?,
        };
        let number = match text.strip_prefix("0x") {
            Some(digits) => u64::from_str_radix(digits, 16),
            None => text.parse(),
        };
        number.map_err(|_| usage(format!("{name} {text} is not a number of 64 bits")))
    }
}
