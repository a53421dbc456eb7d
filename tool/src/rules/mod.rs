//! Which rules a file breaks. Whether it breaks any is for the library to say ([`crate::verdict`]); these name them.

pub mod control;
pub mod former_control;
pub mod former_list;
pub mod list;
pub mod pool;
pub mod snapshot;
#[cfg(test)]
mod tests;

use std::fmt;

/// A rule that a file breaks, and where.
#[derive(Clone, Debug, PartialEq, Eq)]
pub struct Broken {
    pub at: usize,
    pub rule: String,
}

impl fmt::Display for Broken {
    fn fmt(&self, f: &mut fmt::Formatter<'_>) -> fmt::Result {
        write!(f, "offset {}: {}", self.at, self.rule)
    }
}

/// The broken rules found so far.
#[derive(Default)]
struct Findings(Vec<Broken>);

impl Findings {
    /// A rule that is broken.
    fn broken(&mut self, at: usize, rule: impl Into<String>) {
        self.0.push(Broken { at, rule: rule.into() });
    }

    /// A number has a limit.
    fn at_most(&mut self, at: usize, what: &str, most: usize, found: impl Into<u64>) {
        let found = found.into();
        if found > most as u64 {
            self.broken(at, format!("{what} has to be at most {most}; found {found}"));
        }
    }

    /// A number has a lower limit.
    fn at_least(&mut self, at: usize, what: &str, least: u64, found: impl Into<u64>) {
        let found = found.into();
        if found < least {
            self.broken(at, format!("{what} has to be at least {least}; found {found}"));
        }
    }

    /// A number is fixed.
    fn equal(&mut self, at: usize, what: &str, wanted: u64, found: impl Into<u64>) {
        let found = found.into();
        if found != wanted {
            self.broken(at, format!("{what} has to be {wanted}; found {found}"));
        }
    }
}
