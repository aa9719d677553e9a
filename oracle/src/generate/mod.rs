//! Calls of every public function, from one seed: each from a family that finds faults, and one in twelve, or one in
//! three of the functions that are called seldom, with something that is not allowed.

mod arguments;
mod band;
mod hard;
mod norms;
mod numbers;
mod pairs;
mod polynomials;
mod rare;
mod safe_times;
mod scalings;

pub use numbers::Source;

use crate::calls::Call;
use crate::functions::{Function, FUNCTIONS};
use crate::outside::{allowed, just_outside, ways, Allowed};
use crate::words::{Words, NAN};
pub use numbers::{neighbour, power_of_two};

/// How many of a thousand calls are of each function, in the order of their numbers.
const SHARES: [u32; FUNCTIONS.len()] = [20, 10, 10, 20, 15, 65, 30, 110, 60, 480, 40, 100, 40];

impl Source {
    /// The next call of a run.
    pub fn call(&mut self) -> Call {
        let mut place = self.below(1000);
        let mut function = 0;
        while SHARES[function] <= place {
            place -= SHARES[function];
            function += 1;
        }
        self.call_of(FUNCTIONS[function])
    }

    /// The next call of one function.
    pub fn call_of(&mut self, function: Function) -> Call {
        let mut call = Call::new(function, self.allowed(function));
        if self.once_in(if SHARES[function as usize] < 50 { 3 } else { 12 }) {
            self.spoil(&mut call);
        }
        call
    }

    /// What every run asks, however short: the rare inputs, and for each function what is outside its ranges.
    pub fn listed(&mut self) -> Vec<Call> {
        let mut calls: Vec<Call> = rare::calls().collect();
        for function in FUNCTIONS {
            calls.extend(self.outside(function));
        }
        calls
    }

    /// For each place of a function's arguments and each way of being outside there, a call with all else allowed.
    pub fn outside(&mut self, function: Function) -> Vec<Call> {
        let mut calls = Vec::new();
        for place in 0..function.arguments() {
            for &way in ways(function, place) {
                let mut call = Call::new(function, self.allowed(function));
                call.arguments.set(place, just_outside(function, place, way));
                calls.push(call);
            }
        }
        calls
    }

    fn allowed(&mut self, function: Function) -> Words {
        let split = self.split();
        match function {
            Function::SquareRoot => Words::new().numbers(&[self.rooted()]),
            Function::Lerp => {
                let motion = self.motion(split);
                Words::new().numbers(&motion.x[0]).numbers(&motion.x[3]).numbers(&[self.time()])
            }
            Function::AddScaled => {
                let motion = self.motion(split);
                Words::new().points(&motion.x).points(&motion.dx).numbers(&[self.time()])
            }
            Function::Centerize => Words::new().points(&self.motion(split).x),
            Function::ScaleInPlace => Words::new().points(&self.motion(split).x).numbers(&[self.length()]),
            Function::SquaredDistance => Words::new().points(&self.placed(split)).word(split),
            Function::MaxRelativeNorm => {
                let x = if self.once_in(8) { self.about_least(split) } else { self.placed(split) };
                Words::new().points(&x).word(split)
            }
            Function::NormalizeCenterizedConfiguration => self.scaling(split),
            Function::QuadraticRoot => {
                let c = self.polynomial().c;
                let from = self.below(2) as usize;
                Words::new().numbers(&c[from..from + 3])
            }
            Function::CubicRootsInRangeZeroToT => {
                let p = self.polynomial();
                Words::new().numbers(&p.c).numbers(&[p.t, p.epsilon])
            }
            Function::CoplanarTimeMat3x4 => {
                let motion = self.motion(split);
                Words::new().points(&motion.x).points(&motion.dx)
            }
            Function::MaximumSafeTimeAccurate => self.safe_time(split),
            Function::MaximumSafeTimeAllowing => self.safe_time(split).word(self.allowance()),
        }
    }

    /// Puts something that is not allowed into one place, or into two.
    fn spoil(&mut self, call: &mut Call) {
        for _ in 0..self.between(1, 2) {
            let place = self.below(call.function.arguments() as u32) as usize;
            let word = match allowed(call.function, place) {
                Allowed::Whole(low, high) => {
                    self.pick(&[0, low - 1, high + 1, high + 2, 0x1_0000 + low, 0x8000_0000 + low, u32::MAX])
                }
                Allowed::Number(low, high) => self.beyond(low, high),
            };
            call.arguments.set(place, word);
        }
    }

    /// A NaN, an infinity, or a number beyond a range: often the first beyond it.
    fn beyond(&mut self, low: f32, high: f32) -> u32 {
        let infinity = f32::INFINITY.to_bits();
        match self.below(8) {
            0 => NAN,
            1 => infinity,
            2 => infinity | 0x8000_0000,
            3 | 4 => neighbour(low, -1).to_bits(),
            5 | 6 => neighbour(high, 1).to_bits(),
            _ => self.pick(&[f32::MAX, -f32::MAX, 1.0e30, -1.0e30]).to_bits(),
        }
    }
}
