//! The comparison of one call, and the count of comparisons.

use std::fmt::{self, Display, Formatter};

use compare::support::calls::{Calls, COMPARE};

use crate::trials::Trial;

/// Compares an implementation with `compare` and counts how often it did.
pub struct Tally {
    ours: Calls,
    pub comparisons: u64,
}

/// A call on which the two sides differ, written down in full.
#[derive(Debug)]
pub struct Difference(String);

impl Difference {
    pub fn new(report: String) -> Difference {
        Difference(report)
    }
}

impl Display for Difference {
    fn fmt(&self, formatter: &mut Formatter) -> fmt::Result {
        formatter.write_str(&self.0)
    }
}

impl Tally {
    pub fn new(ours: Calls) -> Tally {
        Tally {
            ours,
            comparisons: 0,
        }
    }

    /// Makes the call on both sides. If all agrees, hands back what both
    /// returned.
    pub fn compare(&mut self, trial: &impl Trial) -> Result<u32, Difference> {
        let (returned, _) = self.compare_and_keep(trial)?;
        Ok(returned)
    }

    /// As `compare`, with the buffers after the call.
    pub fn compare_and_keep<T: Trial>(&mut self, trial: &T) -> Result<(u32, T), Difference> {
        let (our_return, ours) = self.ours(trial);
        let mut theirs = trial.clone();
        let their_return = theirs.call(&COMPARE);
        self.comparisons += 1;
        if our_return == their_return && ours == theirs {
            return Ok((our_return, ours));
        }
        let mut report = format!(
            "difference in {}: ours returns {}, compare {}\n",
            trial.name(),
            meaning(our_return),
            meaning(their_return)
        );
        let sides = ours.buffers().into_iter().zip(theirs.buffers());
        for ((name, before), ((_, ours), (_, theirs))) in trial.buffers().into_iter().zip(sides) {
            report += &describe(name, &before, &ours, &theirs);
        }
        Err(Difference(report))
    }

    /// Makes the call on our side alone: what it returned, and the buffers after it.
    pub fn ours<T: Trial>(&self, trial: &T) -> (u32, T) {
        let mut ours = trial.clone();
        let returned = ours.call(&self.ours);
        (returned, ours)
    }
}

/// A returned value, and the number and node in it.
fn meaning(returned: u32) -> String {
    format!("{returned} ({} at node {})", returned % 256, returned / 256)
}

/// A buffer before the call, and after it where it was written.
fn describe(name: &str, before: &str, ours: &str, theirs: &str) -> String {
    if ours == before && theirs == before {
        return format!("  {name}: {before}\n");
    }
    let verdict = if ours == theirs { "agrees" } else { "differs" };
    format!(
        "  {name}, {verdict}\n    before:  {before}\n    ours:    {ours}\n    compare: {theirs}\n"
    )
}
