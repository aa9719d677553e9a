//! Where a safe time starts (docs/01-scope.md, "The walk"): touching, in the band or above park squared.

use super::walk::{Kind, SafeTime};
use super::Rules;
use crate::cover::{met, Branch};

/// The first squared distance, its root, and what they are held to.
pub struct Start {
    first: f32,
    root: f32,
    offset_squared: f32,
    park: f32,
    park_squared: f32,
    pub dip: f32,
}

/// The f32 just below a finite number above zero.
pub fn just_below(x: f32) -> f32 {
    f32::from_bits(x.to_bits() - 1)
}

impl Start {
    pub fn new(rules: &Rules, first: f32, offset: f32, clearance: f32) -> Start {
        let (park, dip) = (offset + clearance, offset + clearance * 0.5);
        Start { first, root: rules.root(first), offset_squared: offset * offset, park, park_squared: park * park, dip }
    }

    /// Whether the pair is touching. The methods below are for a pair that is not.
    pub fn touches(&self, rules: &Rules) -> bool {
        if self.first == self.offset_squared {
            met(Branch::StartAtOffset);
        } else if self.first < self.offset_squared {
            met(Branch::StartInside);
        }
        self.first <= self.offset_squared || (rules.touching_at_park && self.first == self.park_squared)
    }

    fn in_band(&self) -> bool {
        self.first <= self.park_squared
    }

    /// What the squared distance has to stay above.
    pub fn threshold(&self, rules: &Rules) -> f32 {
        met(if self.in_band() { Branch::ThresholdBelowFirst } else { Branch::ThresholdPark });
        if just_below(self.first) == self.park_squared {
            met(Branch::ThresholdBoth);
        }
        (rules.threshold)(self.first, self.park_squared)
    }

    /// Park in the directional step.
    pub fn step_park(&self, rules: &Rules) -> f32 {
        if rules.step_by_threshold && self.in_band() {
            rules.root((rules.threshold)(self.first, self.park_squared))
        } else {
            self.park
        }
    }

    /// Notes how a walk from here ends, for each thing that there is to say of the start.
    pub fn note_end(&self, end: &SafeTime) {
        use Branch::*;
        let note = |[contact, clear, budget]: [Branch; 3]| match end.kind {
            Kind::Touching => {}
            Kind::Contact => met(contact),
            Kind::Clear => met(clear),
            Kind::Budget => met(budget),
        };
        if just_below(self.first) == self.offset_squared {
            note(if self.in_band() {
                [LowestContact, LowestClear, LowestBudget]
            } else {
                [NoBandContact, NoBandClear, NoBandBudget]
            });
        }
        if self.first == self.park_squared {
            note([AtParkContact, AtParkClear, AtParkBudget]);
        }
        if self.in_band() {
            note(if self.dip < self.root {
                [AboveDipContact, AboveDipClear, AboveDipBudget]
            } else if self.dip == self.root {
                [AtDipContact, AtDipClear, AtDipBudget]
            } else {
                [BelowDipContact, BelowDipClear, BelowDipBudget]
            });
        }
        if self.in_band() && self.root <= self.dip && end.kind == Kind::Budget && end.time > 0.0 {
            met(DipLeft);
        }
    }
}
