//! The command line: a command, then options with values.

use std::str::FromStr;

/// Why the program ends early.
#[derive(Debug, PartialEq, Eq)]
pub enum Failure {
    /// The command wasn't understood.
    Usage(String),
    Failed(String),
}

pub struct Args {
    words: Vec<String>,
}

impl Args {
    pub fn new(words: Vec<String>) -> Args {
        Args { words }
    }

    /// Takes the first word.
    pub fn command(&mut self) -> Option<String> {
        (!self.words.is_empty()).then(|| self.words.remove(0))
    }

    /// Takes an option without a value: whether it stands.
    pub fn flag(&mut self, name: &str) -> bool {
        let at = self.words.iter().position(|word| word == name);
        at.map(|at| self.words.remove(at)).is_some()
    }

    /// Takes an option and its value.
    pub fn value(&mut self, name: &str) -> Result<Option<String>, Failure> {
        let Some(at) = self.words.iter().position(|word| word == name) else {
            return Ok(None);
        };
        self.words.remove(at);
        if at == self.words.len() {
            return Err(Failure::Usage(format!("{name} needs a value")));
        }
        Ok(Some(self.words.remove(at)))
    }

    /// Takes an option whose value is read as a T.
    pub fn parsed<T: FromStr>(&mut self, name: &str, what: &str) -> Result<Option<T>, Failure> {
        let Some(text) = self.value(name)? else {
            return Ok(None);
        };
        let bad = |_| Failure::Usage(format!("{name} {text}: not {what}"));
        text.parse().map(Some).map_err(bad)
    }

    pub fn number(&mut self, name: &str) -> Result<Option<u64>, Failure> {
        self.parsed(name, "a whole number")
    }

    /// Nothing may be left over.
    pub fn finish(&self) -> Result<(), Failure> {
        match self.words.first() {
            Some(word) => Err(Failure::Usage(format!("{word:?} isn't understood here"))),
            None => Ok(()),
        }
    }
}

#[cfg(test)]
mod tests {
    use super::*;

    fn args(line: &str) -> Args {
        Args::new(line.split_whitespace().map(str::to_string).collect())
    }

    #[test]
    fn options_in_any_order() {
        let mut line = args("demo --loud --seed 7");
        assert_eq!(line.command().as_deref(), Some("demo"));
        assert_eq!(line.number("--seed"), Ok(Some(7)));
        assert_eq!(line.number("--port"), Ok(None));
        assert!(line.finish().is_err());
        assert!(line.flag("--loud"));
        assert_eq!(line.finish(), Ok(()));
    }

    #[test]
    fn bad_values() {
        assert!(args("--seed").number("--seed").is_err());
        assert!(args("--seed x").number("--seed").is_err());
    }
}
