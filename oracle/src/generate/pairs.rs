//! Pairs in motion: ordinary ones, and the families that find faults.

use super::numbers::Source;
use crate::model::{Point, Points, BOUND};

/// Four points and their displacements.
#[derive(Clone, Copy)]
pub struct Motion {
    pub x: Points,
    pub dx: Points,
}

const FAMILIES: u32 = 20;

impl Source {
    fn point(&mut self, mut f: impl FnMut(&mut Source) -> f32) -> Point {
        [f(self), f(self), f(self)]
    }

    pub fn points(&mut self, mut f: impl FnMut(&mut Source) -> f32) -> Points {
        [self.point(&mut f), self.point(&mut f), self.point(&mut f), self.point(&mut f)]
    }

    /// A pair of one of the families.
    pub fn motion(&mut self, split: u32) -> Motion {
        let mut motion = match self.below(FAMILIES) {
            0 | 1 => self.cloth(),
            2 => self.boxed(),
            3..=7 => self.meeting(split),
            8 | 9 => self.grazing(),
            10 | 11 => self.nearly_parallel(),
            12 => self.degenerate(split),
            13 => self.lattice(),
            14 => self.facing(),
            15 => self.tiny(),
            16 => self.huge(),
            17 => self.fast(),
            18 => self.coarse(),
            _ => Motion { x: self.points(Source::wild), dx: self.points(Source::wild) },
        };
        held(&mut motion.x);
        held(&mut motion.dx);
        motion
    }

    /// Pieces a few centimetres long that move by a little more than their size.
    fn cloth(&mut self) -> Motion {
        let centre = self.point(Source::signed);
        let size = self.sized(-8, -4);
        let speed = size * self.pick(&[0.25, 1.0, 4.0]);
        let x = self.points(|s| s.signed() * size);
        Motion { x: x.map(|p| plus(p, centre)), dx: self.points(|s| s.signed() * speed) }
    }

    /// Coordinates up to 1, 10 or 1,000 in size.
    fn boxed(&mut self) -> Motion {
        let size = self.pick(&[0.99, 10.0, 1000.0]);
        let speed = size * self.pick(&[0.1, 1.0, 3.0]);
        Motion { x: self.points(|s| s.signed() * size), dx: self.points(|s| s.signed() * speed) }
    }

    /// The two sides meet, or nearly, at some time.
    fn meeting(&mut self, split: u32) -> Motion {
        let time = self.pick(&[0.01, 0.25, 0.5, 0.75, 0.99]) + self.unit() * 0.009;
        let size = self.sized(-6, 1);
        let mut there = self.points(|s| s.signed() * size);
        let dx = self.points(|s| s.signed() * size * 2.0);
        let miss = self.point(|s| s.signed() * size * 0.001);
        let (s, r) = (self.unit(), self.unit());
        if split == 2 {
            let on = plus(scaled(there[0], 1.0 - s), scaled(there[1], s));
            let along = minus(there[3], there[2]);
            there[2] = plus(minus(on, scaled(along, r)), miss);
            there[3] = plus(there[2], along);
        } else {
            let (v, w) = (s * 0.5, r * 0.5);
            let place = plus(scaled(there[0], 1.0 - v - w), plus(scaled(there[1], v), scaled(there[2], w)));
            there[3] = plus(place, miss);
        }
        let mut x = there;
        for i in 0..4 {
            x[i] = minus(there[i], scaled(dx[i], time));
        }
        Motion { x, dx }
    }

    /// One side slides past the other at a height that hardly changes.
    fn grazing(&mut self) -> Motion {
        let height = self.sized(-6, 1);
        let tilt = height * self.pick(&[0.0, 1.0e-7, 1.0e-5, 1.0e-3]);
        let mut x = [[-1.0, 0.0, 0.0], [1.0, 0.0, 0.0], [0.0, -1.0, height], [0.0, 1.0, height]];
        if self.once_in(2) {
            // as a face and a vertex, and for edges one end nearest
            x = [[-1.0, -1.0, 0.0], [1.0, -1.0, 0.0], [0.0, 1.0, 0.0], [-0.5, -0.5, height]];
        }
        let slide = self.point(|s| s.signed());
        let mut dx = [[0.0; 3], [0.0; 3], slide, slide];
        for i in 0..4 {
            for j in 0..3 {
                x[i][j] += self.signed() * tilt;
                dx[i][j] += self.signed() * tilt;
            }
            dx[i][2] *= self.pick(&[0.0, 1.0e-3, 1.0]);
        }
        Motion { x, dx }
    }

    /// Edges, or sides of a face, that differ in direction by very little.
    fn nearly_parallel(&mut self) -> Motion {
        let size = self.sized(-6, 4);
        let angle = self.sized(-26, -6) * size;
        let along = self.point(|s| s.signed() * size);
        let start = self.point(|s| s.signed() * size * 0.25);
        let second = scaled(along, self.pick(&[1.0, 0.5, -1.0, 0.25]));
        let skew = self.point(|s| s.signed() * angle);
        let origin = self.point(|s| s.signed() * size);
        let tip = plus(plus(origin, second), skew);
        let mut x = [origin, plus(origin, along), plus(origin, start), plus(plus(origin, start), plus(second, skew))];
        if self.once_in(2) {
            x[2] = tip;
        }
        let flat = self.once_in(2);
        let approach = scaled(start, -2.0);
        let other = self.points(|s| s.signed() * size);
        Motion { x, dx: if flat { [[0.0; 3], [0.0; 3], approach, approach] } else { other } }
    }

    /// Points or displacements that repeat, edges of no length, faces that are a line.
    fn degenerate(&mut self, split: u32) -> Motion {
        let from = self.below(3);
        let mut motion = match from {
            0 => self.cloth(),
            1 => self.lattice(),
            _ => self.meeting(split),
        };
        for _ in 0..self.between(1, 3) {
            let (i, j) = (self.below(4) as usize, self.below(4) as usize);
            match self.below(4) {
                0 => motion.dx[i] = motion.dx[j],
                1 => motion.x[i] = scaled(plus(motion.x[j], motion.x[(j + 1) % 4]), 0.5),
                2 => motion.dx[i] = [0.0; 3],
                _ => {
                    motion.x[i] = motion.x[j];
                    motion.dx[i] = motion.dx[j];
                }
            }
        }
        motion
    }

    /// Small whole numbers, times a power of two: equal candidates, exact distances.
    fn lattice(&mut self) -> Motion {
        let step = self.pick(&[1.0, 1.0, 0.125, 1024.0, 1.0 / 16_777_216.0]);
        let most = self.pick(&[1, 2, 4]);
        Motion { x: self.points(|s| s.whole(most) * step), dx: self.points(|s| s.whole(2 * most) * step) }
    }

    /// One side at height 0, the other above it and coming down or going up.
    fn facing(&mut self) -> Motion {
        let height = self.pick(&[1.0, 2.0, 3.0, 4.0]) * self.pick(&[1.0, 1.0, 0.25, 1.1]);
        let speed = self.pick(&[-1.0, -2.0, -4.0, 1.0, -0.5]) * self.pick(&[1.0, 1.0, 1.3]);
        let wide = self.pick(&[1.0, 2.0, 0.5]);
        let x = [[0.0, 0.0, 0.0], [wide, 0.0, 0.0], [0.0, self.whole(1), height], [wide, 0.0, height]];
        let face = [[0.0, 0.0, 0.0], [wide, 0.0, 0.0], [0.0, wide, 0.0], [0.25 * wide, self.whole(1) * 0.25, height]];
        let down = [0.0, 0.0, speed];
        if self.once_in(2) {
            Motion { x, dx: [[0.0; 3], [0.0; 3], down, down] }
        } else {
            Motion { x: face, dx: [[0.0; 3], [0.0; 3], [0.0; 3], down] }
        }
    }

    /// Numbers whose squares are subnormal or vanish, and numbers just above those.
    fn tiny(&mut self) -> Motion {
        let (low, high) = self.pick(&[(-149, -110), (-80, -60), (-75, -40), (-45, -20)]);
        let number = |s: &mut Source| s.sized(low, high) * s.pick(&[1.0, -1.0, 0.0]);
        Motion { x: self.points(number), dx: self.points(number) }
    }

    /// Numbers up to 2^20.
    fn huge(&mut self) -> Motion {
        let speed = self.pick(&[1.0, 0.01, 0.000_01]);
        let number = |s: &mut Source| s.signed() * BOUND;
        Motion { x: self.points(number), dx: self.points(|s| number(s) * speed) }
    }

    /// Ordinary pieces that travel very far in the whole time.
    fn fast(&mut self) -> Motion {
        let mut motion = self.cloth();
        let speed = self.sized(4, 18);
        let one = self.point(|s| s.signed() * speed);
        if self.once_in(2) {
            motion.dx = self.points(|s| s.signed() * speed);
        } else {
            motion.dx = [[0.0; 3], [0.0; 3], one, one];
        }
        motion
    }

    /// Small pieces far from the origin, where coordinates are coarse.
    fn coarse(&mut self) -> Motion {
        let far = self.sized(8, 18);
        let centre = self.point(|s| s.pick(&[far, -far, 0.0]));
        let size = far * self.sized(-21, -12);
        let x = self.points(|s| s.whole(8) * size);
        Motion { x: x.map(|p| plus(p, centre)), dx: self.points(|s| s.signed() * size * 4.0) }
    }
}

fn plus(a: Point, b: Point) -> Point {
    [a[0] + b[0], a[1] + b[1], a[2] + b[2]]
}

fn minus(a: Point, b: Point) -> Point {
    [a[0] - b[0], a[1] - b[1], a[2] - b[2]]
}

fn scaled(a: Point, s: f32) -> Point {
    [a[0] * s, a[1] * s, a[2] * s]
}

/// Holds each number to 2^20 in size.
fn held(x: &mut Points) {
    for n in x.iter_mut().flatten() {
        *n = n.max(-BOUND).min(BOUND);
    }
}
