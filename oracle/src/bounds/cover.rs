//! What a run of the bounds met.

use std::cmp::Ordering;

use super::measured::{Measured, Sizes};
use crate::exact::{apart, compared, squared_distance, units};
use crate::generate::neighbour;
use crate::model::{cross, Point, Points, BOUND, SLOWEST};
use crate::named::{named, print, unmet};

named! {
    /// What a run has to meet.
    Met,
    /// What each is.
    NAMES {
        Edges: "split 2",
        Face: "split 3",
        Refused: "refused",
        Zero: "the original's number is zero",
        Stands: "the original's number is below 2^-60: it stands",
        JustBelow: "the original's number is the last f32 below 2^-60",
        AtLeast: "the original's number is 2^-60",
        JustAbove: "the original's number is the first f32 above 2^-60",
        Raised: "the original's number is at least 2^-60: it is raised",
        Below: "raised: the original's number is below the exact largest distance",
        Exact: "raised: the original's number is the exact largest distance",
        Above: "raised: the original's number is above the exact largest distance",
        Rounded: "raised: a difference is rounded",
        Subnormal: "raised: a square is subnormal",
        Vanished: "raised: a square is zero, and its difference is not",
        Other: "raised: the computed largest is another cross pair's than the exact largest",
        Largest: "raised: a coordinate is 2^20 in size",
    }
}

pub struct Cover {
    pairs: u64,
    counts: Vec<u64>,
}

impl Cover {
    pub fn new() -> Cover {
        Cover { pairs: 0, counts: vec![0; NAMES.len()] }
    }

    pub fn note(&mut self, this: &Measured) {
        self.pairs += 1;
        match &this.held_to {
            Ok(sizes) => self.answered(&this.call.points("x"), this.call.word("split"), sizes),
            Err(_) => self.note_where(&[(true, Met::Refused)]),
        }
    }

    fn note_where(&mut self, shown: &[(bool, Met)]) {
        shown.iter().filter(|(is_so, _)| *is_so).for_each(|&(_, met)| self.counts[met as usize] += 1);
    }

    fn answered(&mut self, x: &Points, split: u32, sizes: &Sizes) {
        let source = sizes.source;
        let raised = source >= SLOWEST;
        self.note_where(&[
            (split == 2, Met::Edges),
            (split == 3, Met::Face),
            (source == 0.0, Met::Zero),
            (!raised, Met::Stands),
            (source == neighbour(SLOWEST, -1), Met::JustBelow),
            (source == SLOWEST, Met::AtLeast),
            (source == neighbour(SLOWEST, 1), Met::JustAbove),
            (raised, Met::Raised),
        ]);
        if raised {
            self.raised(x, split, sizes);
        }
    }

    fn raised(&mut self, x: &Points, split: u32, sizes: &Sizes) {
        let to_exact = compared(sizes.source, &sizes.square);
        let any = |test: fn(f32, f32) -> bool| cross(x, split).any(|(a, b)| (0..3).any(|i| test(a[i], b[i])));
        let other = squared_distance(computed_largest(x, split)) < sizes.square;
        self.note_where(&[
            (to_exact == Ordering::Less, Met::Below),
            (to_exact == Ordering::Equal, Met::Exact),
            (to_exact == Ordering::Greater, Met::Above),
            (any(|a, b| units(a - b) != apart(a, b)), Met::Rounded),
            (any(|a, b| square(a - b).is_subnormal()), Met::Subnormal),
            (any(|a, b| a != b && square(a - b) == 0.0), Met::Vanished),
            (other, Met::Other),
            (x.iter().flatten().any(|n| n.abs() == BOUND), Met::Largest),
        ]);
    }

    pub fn pairs(&self) -> u64 {
        self.pairs
    }

    pub fn missing(&self) -> Vec<String> {
        unmet(NAMES, &self.counts)
    }

    pub fn print(&self) {
        println!("met, in pairs:");
        print(NAMES, &self.counts);
    }
}

fn square(d: f32) -> f32 {
    d * d
}

/// The cross pair whose computed square is the largest, the first of equals.
fn computed_largest(x: &Points, split: u32) -> (Point, Point) {
    let computed = |(a, b): (Point, Point)| square(a[0] - b[0]) + square(a[1] - b[1]) + square(a[2] - b[2]);
    let larger = |so_far, this| if computed(so_far) < computed(this) { this } else { so_far };
    cross(x, split).reduce(larger).expect("there are cross pairs")
}
