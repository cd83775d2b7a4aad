//! What was measured of a case.

use crate::case::Case;
use crate::timing::Times;

pub struct Measured<'a> {
    pub case: Case<'a>,
    /// The costs of its contenders, the library first.
    pub costs: Vec<Cost>,
}

/// What a contender costs for an item.
pub struct Cost {
    pub times: Times,
    pub instructions: f64,
}

impl Measured<'_> {
    pub fn library(&self) -> &Cost {
        &self.costs[0]
    }

    pub fn of(&self, name: &str) -> Option<&Cost> {
        let at = self.case.contenders.iter().position(|contender| contender.name == name)?;
        Some(&self.costs[at])
    }
}
