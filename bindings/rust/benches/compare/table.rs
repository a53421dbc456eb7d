//! The printed tables.

use crate::timing::{compare, Compared};
use std::fmt::Debug;

/// Prints rows, those that were asked for.
pub struct Report {
    wanted: Vec<String>,
    logarithms: Vec<f64>,
}

impl Report {
    /// All rows, or those whose names hold one of the words after `--`.
    pub fn from_arguments() -> Report {
        let wanted = std::env::args().skip(1).filter(|word| !word.starts_with("--")).collect();
        Report { wanted, logarithms: Vec::new() }
    }

    /// Begins a table.
    pub fn heading(&mut self, title: &str, other: &str) {
        println!("\n{title}\n");
        println!("| operation | library ns | {other} ns | ratio |");
        println!("|-|-:|-:|-:|");
        self.logarithms.clear();
    }

    /// Ends a table, if it has rows.
    pub fn mean(&self) {
        let rows = self.logarithms.len();
        if rows != 0 {
            let mean = (self.logarithms.iter().sum::<f64>() / rows as f64).exp();
            println!("\ngeometric mean of the {rows} ratios: {mean:.2}");
        }
    }

    /// Times both sides, unless the row was not asked for. Both must give the same first, and leave the same bytes.
    pub fn row<T: Clone + PartialEq, R: PartialEq + Debug>(
        &mut self,
        name: &str,
        state: &mut T,
        mut library: impl FnMut(&mut T) -> R,
        mut other: impl FnMut(&mut T) -> R,
    ) {
        if self.is_wanted(name) {
            let (mut left, mut right) = (state.clone(), state.clone());
            assert_eq!(library(&mut left), other(&mut right), "{name}");
            assert!(left == right, "{name}");
            self.row_unlike(name, state, library, other);
        }
    }

    /// Times two sides that do unlike things.
    pub fn row_unlike<T, R, Q>(&mut self, name: &str, state: &mut T, library: impl FnMut(&mut T) -> R, other: impl FnMut(&mut T) -> Q) {
        if self.is_wanted(name) {
            let t = compare(state, library, other);
            self.print(name, &t);
            self.logarithms.push(t.ratio().ln());
        }
    }

    pub fn is_wanted(&self, name: &str) -> bool {
        self.wanted.is_empty() || self.wanted.iter().any(|word| name.contains(word.as_str()))
    }

    pub fn print(&self, name: &str, t: &Compared) {
        println!("| {name} | {:.1} | {:.1} | {:.2} |", t.library, t.other, t.ratio());
    }
}
