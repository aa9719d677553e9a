//! Pairs for the laws of the norm, and powers of two by which to multiply them.

use super::numbers::{power_of_two, Source};
use crate::calls::Call;
use crate::functions::Function;
use crate::model::{Points, BOUND};
use crate::words::Words;

impl Source {
    /// A call of the norm, one in eight with something that is not allowed, and powers.
    pub fn norm(&mut self) -> (Call, Vec<i32>) {
        let split = self.split();
        let x = if self.once_in(3) { self.placed(split) } else { self.of_one_size() };
        let powers = self.powers(&x);
        let mut call = Call::new(Function::MaxRelativeNorm, Words::new().points(&x).word(split));
        if self.once_in(8) {
            self.spoil(&mut call);
        }
        (call, powers)
    }

    /// Numbers whose squared differences are seldom rounded away: small whole numbers of one unit, numbers of one
    /// exponent, coarse ones; some of them zero, some equal, and sometimes all columns alike.
    fn of_one_size(&mut self) -> Points {
        let exponent = self.between(-62, 19);
        let unit = power_of_two(exponent) as f32;
        let most = self.pick(&[1, 2, 8, 1000]);
        let mut x = match self.below(3) {
            0 => self.points(|s| s.whole(most) * unit),
            1 => self.points(|s| s.sized(exponent, exponent) * s.pick(&[1.0, -1.0])),
            _ => self.points(|s| (1.0 + s.whole(8) / 1024.0) * unit),
        };
        for _ in 0..self.below(5) {
            let [i, j] = [self.below(4), self.below(4)].map(|column| column as usize);
            let coordinate = self.below(3) as usize;
            x[i][coordinate] = if self.once_in(2) { 0.0 } else { x[j][coordinate] };
        }
        if self.once_in(16) {
            x = [x[0]; 4];
        }
        x.map(|column| column.map(|n| n.max(-BOUND).min(BOUND)))
    }

    /// The k of some powers 2^k: a small one up and one down, one of any size, and the one that brings the largest
    /// number to 2^20, or as near as it can.
    fn powers(&mut self, x: &Points) -> Vec<i32> {
        let largest = x.iter().flatten().fold(0.0f32, |most, n| most.max(n.abs()));
        let (exponent, digits) = ((largest.to_bits() >> 23) as i32 - 127, largest.to_bits() & 0x7f_ffff);
        let to_bound = if digits == 0 { 20 - exponent } else { 19 - exponent };
        vec![self.between(1, 12), -self.between(1, 12), self.between(-146, 146), to_bound]
    }
}
