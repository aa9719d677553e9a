//! The smallest and the largest quotient of a number and the exact largest distance, each with its call.

use crate::calls::Call;
use crate::exact::{excess, Whole};

/// Quotients by what they are above 1, in parts of 2^-24.
pub struct Extremes {
    smallest: Option<(f64, Call)>,
    largest: Option<(f64, Call)>,
}

impl Extremes {
    pub fn new() -> Extremes {
        Extremes { smallest: None, largest: None }
    }

    /// Notes a number of a pair whose exact largest square of a distance is above zero.
    pub fn note(&mut self, number: f32, square: &Whole, call: &Call) {
        let parts = excess(number, square);
        if !matches!(self.smallest, Some((so_far, _)) if so_far <= parts) {
            self.smallest = Some((parts, *call));
        }
        if !matches!(self.largest, Some((so_far, _)) if so_far >= parts) {
            self.largest = Some((parts, *call));
        }
    }

    pub fn print(&self, whose: &str) {
        for (name, extreme) in [("smallest", &self.smallest), ("largest", &self.largest)] {
            if let Some((parts, call)) = extreme {
                let sign = if *parts < 0.0 { '-' } else { '+' };
                println!("{whose}: {name} over the exact distance 1 {sign} {:.3}*2^-24", parts.abs());
                println!("  {}", call.hex());
            }
        }
    }
}
