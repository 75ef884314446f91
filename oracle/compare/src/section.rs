//! What comes of a section of the comparison that counts its cases by classes.

use crate::run::Tally;
use std::fmt;

/// What came of one call in a section.
pub struct Section {
    /// The section's name.
    pub name: &'static str,
    pub tally: Tally,
    /// A line for each sort of classes, with its counts.
    pub lines: Vec<String>,
    /// What was not met.
    pub missing: Vec<String>,
}

impl fmt::Display for Section {
    fn fmt(&self, f: &mut fmt::Formatter<'_>) -> fmt::Result {
        write!(f, "{}, {}", self.name, self.tally)?;
        self.lines
            .iter()
            .try_for_each(|line| write!(f, "\n  {line}"))
    }
}
