//! Placement in groups of three granules.

use crate::cause::{require, Refusal, GAP, RESPONSES, SECOND_MISC};
use crate::layout::{Format, GRANULES, GROUP, GROUPS};
use crate::message::Kind;

/// Which granules are populated, and what starts in each.
#[derive(Clone, Copy, PartialEq, Eq, Debug, Default)]
pub struct Placement {
    pub starts: [Option<Kind>; GRANULES],
    pub populated: [bool; GRANULES],
}

impl Placement {
    /// The placement with one more message that starts at a granule.
    pub fn with(mut self, format: Format, granule: usize, kind: Kind) -> Placement {
        self.starts[granule] = Some(kind);
        for g in format.occupied(granule, kind.size()) {
            self.populated[g] = true;
        }
        self
    }

    /// Whether a message of a kind starts.
    pub fn has(&self, kind: Kind) -> bool {
        self.starts.contains(&Some(kind))
    }

    /// Judges the groups upwards, at each causes 10, 11 and 12.
    pub fn judge_groups(&self) -> Result<(), Refusal> {
        for group in 0..GROUPS {
            require(!self.has_gap(group), GAP, group)?;
            require(self.count(group, |kind| usize::from(kind.is_misc())) <= 1, SECOND_MISC, group)?;
            require(self.count(group, Kind::responses) <= 4, RESPONSES, group)?;
        }
        Ok(())
    }

    /// Whether a populated granule of a group stands behind an unpopulated one.
    fn has_gap(&self, group: usize) -> bool {
        let first = GROUP * group;
        (first + 1..first + GROUP).any(|g| self.populated[g] && !self.populated[g - 1])
    }

    /// A sum over the messages that start in a group.
    fn count(&self, group: usize, weight: impl Fn(Kind) -> usize) -> usize {
        let first = GROUP * group;
        self.starts[first..first + GROUP].iter().flatten().map(|&kind| weight(kind)).sum()
    }
}
