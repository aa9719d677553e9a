//! Calls of the scaling of a pair.

use super::numbers::{power_of_two, Source};
use crate::words::Words;

impl Source {
    /// A pair to be scaled: also with its largest entry where f passes exactly through 8, and pairs whose displacements
    /// leave the range.
    pub fn scaling(&mut self, split: u32) -> Words {
        let mut motion = self.motion(split);
        let mut max_t = self.time();
        match self.below(6) {
            0 | 1 => {
                // 0.99 / 8^k and its neighbours, the other numbers smaller
                let largest = (f64::from(0.99f32) * power_of_two(-3 * self.between(0, 43))) as f32;
                let largest = self.near(largest, 1);
                let shrunk = largest * 0.5;
                for n in motion.x.iter_mut().chain(motion.dx.iter_mut()).flatten() {
                    *n = n.signum() * shrunk * n.abs().min(1.0);
                }
                let (i, j) = (self.below(4) as usize, self.below(3) as usize);
                motion.x[i][j] = if self.once_in(2) { largest } else { -largest };
                if self.once_in(4) {
                    motion.dx[i][j] = motion.x[i][j];
                    motion.x[i][j] = 0.0;
                    max_t = 1.0;
                }
            }
            2 => {
                let tiny = self.sized(-149, -100);
                for n in motion.x.iter_mut().flatten() {
                    *n = n.signum() * tiny * n.abs().min(1.0);
                }
                if self.once_in(2) {
                    max_t = self.pick(&[0.0, -0.0, 1.0e-45, 1.0e-38]);
                }
                if self.once_in(4) {
                    motion.x = [[0.0; 3]; 4];
                }
            }
            3 if self.once_in(8) => motion.dx = [[0.0; 3]; 4],
            _ => {}
        }
        Words::new().points(&motion.x).points(&motion.dx).numbers(&[max_t])
    }
}
