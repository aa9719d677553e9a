//! Calls of the safe time: a pair of one of the families with limits of the size of its own distance, pairs whose
//! nearest candidate changes at a tiny time, pairs with limits for the band, and the rare ones.

use super::numbers::{neighbour, Source};
use super::rare;
use crate::model::{Limits, Points, Rules, BOUND, FASTEST, SLOWEST};
use crate::words::Words;

impl Source {
    pub fn safe_time(&mut self, split: u32) -> Words {
        match self.below(2048) {
            0 | 1 => Words::from_hex(self.pick(&rare::SAFE_TIMES)),
            2..=17 => self.appearing(),
            18..=140 => {
                let motion = self.motion_for_band(split);
                let [offset, clearance] = self.limits_for_band(&motion.x, split);
                let (max_t, u_max) = (self.time(), self.speed(&motion.dx, split));
                call(&motion.x, &motion.dx, split, Limits { offset, clearance, max_t, u_max })
            }
            _ => {
                let motion = self.motion(split);
                let limits = self.limits(&motion.x, &motion.dx, split);
                call(&motion.x, &motion.dx, split, limits)
            }
        }
    }

    /// Offset, clearance, time limit and u_max.
    fn limits(&mut self, x: &Points, dx: &Points, split: u32) -> Limits {
        let distance = Rules::DOCUMENT.distance(x, split).squared.sqrt().min(BOUND);
        let offset = match self.below(24) {
            0 => distance * self.unit(),
            1 => self.near(distance, 2).max(0.0),
            2 => self.length(),
            3 => distance * self.pick(&[0.5, 0.25, 0.9]),
            4 => self.pick(&[-0.0, 1.0e-45, 1.0e-20, BOUND]),
            5..=12 => distance * self.sized(-12, -3),
            _ => 0.0,
        };
        let rest = (distance - offset).max(0.0);
        let clearance = match self.below(24) {
            0 => self.near(rest, 2).max(0.0),
            1 => rest,
            2 => self.length(),
            3 => distance * self.unit(),
            4 => self.pick(&[-0.0, 1.0e-45, 1.0e-20, BOUND]),
            5 => distance * self.sized(-40, -12),
            6 => 0.0,
            _ => distance * self.sized(-12, -3),
        };
        let max_t = self.time();
        Limits { offset: offset.min(BOUND), clearance: clearance.min(BOUND), max_t, u_max: self.speed(dx, split) }
    }

    /// u_max for displacements: mostly their norm.
    fn speed(&mut self, dx: &Points, split: u32) -> f32 {
        let norm = Rules::DOCUMENT.norm(dx, split);
        let speed = match self.below(192) {
            0 | 1 => SLOWEST,
            2 => FASTEST,
            3..=12 => self.near(norm, 2),
            13..=20 => norm * self.pick(&[0.5, 2.0, 100.0, 1.0e6]),
            21 => self.sized(-60, 59),
            _ => norm,
        };
        speed.max(SLOWEST).min(FASTEST)
    }

    /// Edges at a right angle whose interior places appear at a tiny time, with park between the two distances: a
    /// contact at time 0 or just after it, with very many halvings.
    fn appearing(&mut self) -> Words {
        let end = match self.below(3) {
            0 => 1.0e-45,
            1 => self.sized(-149, -140),
            _ => self.sized(-149, -30),
        };
        let edge = [[end, 0.0, 0.0], [1.0 + self.unit(), 0.0, 0.0]];
        let (y, z) = (self.signed(), self.signed());
        let x = [edge[0], edge[1], [0.0, y, z], [0.0, y + self.signed(), z + self.signed()]];
        let later = Rules::DOCUMENT.distance(&[[0.0; 3], x[1], x[2], x[3]], 2).squared;
        let speed = if self.once_in(2) { 1.0 } else { self.unit().max(0.01) };
        let slide = [-speed, 0.0, 0.0];
        let clearance = neighbour(later.sqrt(), self.between(-1, 1));
        let limits = Limits { offset: 0.0, clearance, max_t: 1.0, u_max: speed };
        call(&x, &[slide, slide, [0.0; 3], [0.0; 3]], 2, limits)
    }
}

fn call(x: &Points, dx: &Points, split: u32, limits: Limits) -> Words {
    let Limits { offset, clearance, max_t, u_max } = limits;
    Words::new().points(x).points(dx).word(split).numbers(&[offset, clearance, max_t, u_max])
}
