//! Safe times that start in the band, or just beside it: offset and clearance are made of the pair's own distance.

use super::numbers::{neighbour, power_of_two, Source};
use super::pairs::Motion;
use crate::model::{Points, Rules, BOUND};

impl Source {
    /// A pair of any family, one side that moves over the other, or a pair whose nearest place is rounded off it.
    pub fn motion_for_band(&mut self, split: u32) -> Motion {
        match self.below(8) {
            0 | 1 => self.motion(split),
            2 | 3 => self.misplaced(split),
            _ => self.over(split),
        }
    }

    /// Offset and clearance. The start lies above, at or below dip, at park squared or beside it, or one f32 above
    /// offset squared.
    pub fn limits_for_band(&mut self, x: &Points, split: u32) -> [f32; 2] {
        let first = Rules::DOCUMENT.distance(x, split).squared;
        let distance = first.sqrt().min(BOUND);
        if self.once_in(4) {
            if let Some(offset) = lowest(first) {
                return [offset, self.narrow(offset)];
            }
        }
        let part = self.unit();
        let offset = distance * self.pick(&[0.0, 0.5, 0.75, part, part, neighbour(1.0, -1), 0.9999]);
        let rest = distance - offset;
        let clearance = match self.below(8) {
            0 => self.near(rest, 2).max(0.0),
            1 => rest,
            2 | 3 => rest * (1.0 + self.unit()),
            4 => rest * (1.0 + self.sized(-20, -1)),
            5 => at_dip(offset, distance),
            6 => self.near(2.0 * rest, 2).max(0.0),
            _ => rest * (2.0 + self.sized(-20, 1)),
        };
        [offset, clearance.min(BOUND)]
    }

    /// A clearance of a few neighbours of the offset, of none, or a small part of it.
    fn narrow(&mut self, offset: f32) -> f32 {
        match self.below(4) {
            0 => 0.0,
            1 => offset * self.sized(-23, -12),
            _ => neighbour(offset, self.between(1, 3)) - offset,
        }
    }

    /// Two sides at some height over each other, of which one moves as a whole: down, up, along, askew or not at all.
    fn over(&mut self, split: u32) -> Motion {
        let height = match self.below(3) {
            0 => self.pick(&[0.25, 0.5, 1.0, 2.0, 3.0]),
            1 => self.sized(-6, 2),
            _ => self.sized(-24, -7),
        };
        let rise = height * self.pick(&[1.0, 4.0, 0.25, 0.001]);
        let slide = self.pick(&[1.0, 0.25, 0.01, 1.0e-5]);
        let by = self.pick(&[
            [0.0, 0.0, -rise],
            [0.0, 0.0, rise],
            [slide, 0.0, 0.0],
            [0.0, slide, 0.0],
            [slide, 0.0, rise],
            [slide, slide, -rise],
            [0.0; 3],
        ]);
        if split == 2 {
            let x = [[0.0; 3], [1.0, 0.0, 0.0], [0.0, 0.0, height], [1.0, 0.0, height]];
            Motion { x, dx: [[0.0; 3], [0.0; 3], by, by] }
        } else {
            let x = [[0.0; 3], [1.0, 0.0, 0.0], [0.0, 1.0, 0.0], [0.25, 0.25, height]];
            Motion { x, dx: [[0.0; 3], [0.0; 3], [0.0; 3], by] }
        }
    }

    /// An edge, or a face that is a line, and a point beside its middle, where coordinates are coarse: the nearest
    /// place is rounded off the edge and towards the point. So a start at or below dip may move.
    fn misplaced(&mut self, split: u32) -> Motion {
        let far = power_of_two(self.between(8, 19)) as f32;
        let step = neighbour(far, 1) - far;
        let (sign, turn) = (self.pick(&[1.0, -1.0]), self.below(3) as usize);
        let turned = |p: [f32; 3]| [0, 1, 2].map(|i| sign * p[(i + turn) % 3]);
        let at = |x: f32, y: f32| turned([far + x * step, far + y * step, 0.0]);
        let away = self.between(1, 3) as f32;
        let (start, end, point) = (at(0.0, 1.0), at(1.0, 2.0), at(-away, 2.0 + away));
        let speed = step * self.pick(&[8.0, 4.0, 1.0, 0.01, 0.0, -0.01, -1.0]);
        let by = turned([speed, -speed, step * self.signed()]);
        if split == 2 {
            Motion { x: [start, end, point, point], dx: [[0.0; 3], [0.0; 3], by, by] }
        } else {
            Motion { x: [start, end, end, point], dx: [[0.0; 3], [0.0; 3], [0.0; 3], by] }
        }
    }
}

/// An offset whose square is the f32 just below the first squared distance, where there is one.
fn lowest(first: f32) -> Option<f32> {
    let below = neighbour(first, -1);
    let near = (-2..=2).map(|n| neighbour(first.sqrt(), n));
    near.filter(|offset| (0.0..=BOUND).contains(offset)).find(|offset| offset * offset == below)
}

/// A clearance with which the distance is dip, as nearly as there is one.
fn at_dip(offset: f32, distance: f32) -> f32 {
    let about = 2.0 * (distance - offset);
    let near = [0, 1, -1, 2, -2].map(|n| neighbour(about, n).max(0.0));
    near.into_iter().find(|clearance| offset + clearance * 0.5 == distance).unwrap_or(about)
}
