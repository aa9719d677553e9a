//! Whole numbers from zero up, below 2^448: room for the square of a distance in units of 2^-149, times 2^41.

use std::cmp::Ordering;

const LIMBS: usize = 7;

/// The limbs of 64 bits, the lowest first.
#[derive(Clone, Copy, PartialEq, Eq)]
pub struct Whole([u64; LIMBS]);

impl Whole {
    pub fn new(n: u64) -> Whole {
        let mut limbs = [0; LIMBS];
        limbs[0] = n;
        Whole(limbs)
    }

    /// Times 2^places.
    pub fn shifted(&self, places: u32) -> Whole {
        let (limbs, bits) = ((places / 64) as usize, places % 64);
        let mut moved = [0; LIMBS];
        let mut carry = 0;
        for (i, &limb) in self.0.iter().enumerate() {
            let both = u128::from(limb) << bits | u128::from(carry);
            carry = (both >> 64) as u64;
            match moved.get_mut(i + limbs) {
                Some(place) => *place = both as u64,
                None => assert_eq!(both, 0, "a whole number has no room"),
            }
        }
        assert_eq!(carry, 0, "a whole number has no room");
        Whole(moved)
    }

    pub fn plus(&self, other: &Whole) -> Whole {
        let mut sum = [0; LIMBS];
        let mut carry = 0;
        for (i, place) in sum.iter_mut().enumerate() {
            let both = u128::from(self.0[i]) + u128::from(other.0[i]) + carry;
            *place = both as u64;
            carry = both >> 64;
        }
        assert_eq!(carry, 0, "a whole number has no room");
        Whole(sum)
    }

    /// The size of the difference.
    pub fn apart(&self, other: &Whole) -> Whole {
        let (more, less) = if self < other { (other, self) } else { (self, other) };
        let mut left = [0; LIMBS];
        let mut borrowed = false;
        for (i, place) in left.iter_mut().enumerate() {
            let (first, below) = more.0[i].overflowing_sub(less.0[i]);
            let (second, below_again) = first.overflowing_sub(u64::from(borrowed));
            *place = second;
            borrowed = below || below_again;
        }
        Whole(left)
    }

    pub fn times(&self, other: &Whole) -> Whole {
        let mut product = [0; LIMBS];
        for (i, &limb) in self.0.iter().enumerate().filter(|(_, &limb)| limb != 0) {
            let mut carry = 0;
            for (j, &of_other) in other.0.iter().enumerate() {
                let part = u128::from(limb) * u128::from(of_other) + carry;
                let both = part + product.get(i + j).map_or(0, |&so_far: &u64| u128::from(so_far));
                carry = both >> 64;
                match product.get_mut(i + j) {
                    Some(place) => *place = both as u64,
                    None => assert_eq!(both, 0, "a whole number has no room"),
                }
            }
            assert_eq!(carry, 0, "a whole number has no room");
        }
        Whole(product)
    }

    /// The number in an f64, to within some of its last digits.
    pub fn about(&self) -> f64 {
        self.0.iter().rev().fold(0.0, |so_far, &limb| so_far * 18_446_744_073_709_551_616.0 + limb as f64)
    }
}

impl Ord for Whole {
    fn cmp(&self, other: &Whole) -> Ordering {
        self.0.iter().rev().cmp(other.0.iter().rev())
    }
}

impl PartialOrd for Whole {
    fn partial_cmp(&self, other: &Whole) -> Option<Ordering> {
        Some(self.cmp(other))
    }
}
