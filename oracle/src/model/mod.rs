//! A model of the rules (docs/01-scope.md), in plain Rust over the machine's f32: what each public function answers,
//! refusals and counts included. It is written from the document and not from the original's text. The judge takes from
//! it the rules' answer where the original stops, does not end or leaves a NaN or an infinity.

mod admission;
mod distance;
mod halving;
mod norm;
mod pair;
mod roots;
mod start;
mod step;
mod walk;

pub type Point = [f32; 3];
pub type Points = [Point; 4];

pub use distance::{dot, Distance};
pub use norm::squared_difference;
pub use roots::{missing, Coefficients, Linear, Roots};
pub use walk::{Kind, Limits};

/// The cross pairs: the columns i before the split, each with the columns j from it on.
pub fn cross(x: &Points, split: u32) -> impl Iterator<Item = (Point, Point)> + '_ {
    let (first, second) = x.split_at(split as usize);
    first.iter().flat_map(move |&a| second.iter().map(move |&b| (a, b)))
}

/// The bound on coordinates, displacements, coefficients and lengths, 2^20.
pub const BOUND: f32 = 1_048_576.0;
/// The greatest u_max, 2^60.
pub const FASTEST: f32 = 1_152_921_504_606_846_976.0;
/// The least u_max, 2^-60.
pub const SLOWEST: f32 = 1.0 / FASTEST;

/// The most probes that a safe time may be allowed, and what it is allowed where its caller names no number.
pub const FULL_ALLOWANCE: u32 = 4096;

/// Why nothing is answered: a number of the rules' table.
pub type Refusal = u32;

/// The numbers of the rules by which the model goes. A planted fault is one of them changed.
#[derive(Clone, Copy)]
pub struct Rules {
    /// The candidate that is left out, of edges and of a face.
    pub left_out: [Option<usize>; 2],
    /// Whether a later candidate equal to the smallest is taken.
    pub last_of_equals: bool,
    /// Whether a pair is touching at park squared, too.
    pub touching_at_park: bool,
    /// The threshold, by the first squared distance and park squared: park squared, or the f32 just below the first
    /// where that is smaller.
    pub threshold: fn(f32, f32) -> f32,
    /// Whether park in the directional step is the root of the threshold where the pair starts in the band.
    pub step_by_threshold: bool,
    /// Whether a plain step below zero is taken.
    pub plain_below_zero: bool,
    /// The slack of rounding in the directional step, 2^-22.
    pub round_slack: f32,
    /// The slack of coordinates in the directional step, 6.2e-7.
    pub coordinate_slack: f32,
    /// What a walk makes of the number of probes allowed: itself.
    pub probes: fn(u32) -> u32,
    /// The least number that may be allowed, 1.
    pub least_allowance: u32,
    /// The Newton steps, 20.
    pub newton_steps: u32,
    /// The halving stops below this window, 0: only where the window repeats.
    pub least_window: f32,
    /// What is made of the fraction of the range that a linear root is.
    pub linear: Linear,
    /// Whether a repeated root of the quadratic case is dropped.
    pub drops_repeated: bool,
    /// How many bits a square root is off, 0.
    pub root_off: u32,
    /// What the norm makes of two columns of a pair.
    pub of_columns: fn(&Points, usize, usize) -> f32,
    /// The least source norm that is raised, 2^-60.
    pub raised_from: f32,
    /// The factor by which it is raised, 1 + 2^-21.
    pub raised_by: f32,
}

impl Rules {
    /// As the rules have them.
    pub const DOCUMENT: Rules = Rules {
        left_out: [None, None],
        last_of_equals: false,
        touching_at_park: false,
        threshold: |first, park_squared| smaller(park_squared, start::just_below(first)),
        step_by_threshold: false,
        plain_below_zero: false,
        round_slack: 1.0 / 4_194_304.0,
        coordinate_slack: 6.2e-7,
        probes: |allowance| allowance,
        least_allowance: 1,
        newton_steps: 20,
        least_window: 0.0,
        linear: Linear::TimesRange,
        drops_repeated: false,
        root_off: 0,
        of_columns: squared_difference,
        raised_from: SLOWEST,
        raised_by: 1.0 + 1.0 / 2_097_152.0,
    };

    /// The square root of a number not below zero, correctly rounded; plus zero for an infinity.
    fn root(&self, x: f32) -> f32 {
        if x == 0.0 || x.is_infinite() {
            0.0
        } else {
            f32::from_bits(x.sqrt().to_bits() + self.root_off)
        }
    }

    /// The public square root.
    pub fn square_root(&self, x: f32) -> Result<f32, Refusal> {
        use crate::cover::{met, Branch};
        admission::Admission::new().number(x, 0.0, f32::MAX).done()?;
        met(if x == 0.0 {
            Branch::RootZero
        } else if x < f32::MIN_POSITIVE {
            Branch::RootSubnormal
        } else {
            Branch::RootNormal
        });
        Ok(self.root(x))
    }
}

/// A number held to low..high. By comparisons, so that a zero keeps its sign whatever a compiler makes of its own clamp.
fn clamp(x: f32, low: f32, high: f32) -> f32 {
    if x < low {
        low
    } else if high < x {
        high
    } else {
        x
    }
}

/// The larger, the first of equals.
fn larger(a: f32, b: f32) -> f32 {
    if a < b {
        b
    } else {
        a
    }
}

/// The smaller, the first of equals.
fn smaller(a: f32, b: f32) -> f32 {
    if b < a {
        b
    } else {
        a
    }
}

/// Plus zero for either zero, as answered times and roots are written.
fn plus_zero(x: f32) -> f32 {
    x + 0.0
}
