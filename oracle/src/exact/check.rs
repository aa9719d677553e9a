//! The exact arithmetic held to that of 128 bits, at pairs of small whole numbers times a power of two.

use super::{excess, keeps_within, largest, reaches, Whole};
use crate::generate::{power_of_two, Source};
use crate::model::{cross, Points};

const PAIRS: u32 = 20_000;
/// Each coordinate is at most so many times the power of two.
const MOST: i32 = 1 << 21;

/// Whether all pairs are as they are in 128 bits.
pub fn holds() -> bool {
    let mut source = Source::new(1);
    (0..PAIRS).all(|_| agrees(&mut source))
}

/// One pair and a length about its largest distance.
fn agrees(source: &mut Source) -> bool {
    let split = source.split();
    let most = source.pick(&[3, 1000, MOST]);
    let whole: Points = source.points(|s| s.between(-most, most) as f32);
    let k = source.between(-149, -1);
    let times = |n: f32| (f64::from(n) * power_of_two(k)) as f32;
    let x = whole.map(|column| column.map(times));

    let side = |a: f32, b: f32| u128::from((a as i32).abs_diff(b as i32));
    let square = cross(&whole, split).map(|(a, b)| (0..3).map(|i| side(a[i], b[i]) * side(a[i], b[i])).sum::<u128>());
    let square = square.max().expect("there are cross pairs");
    let root = (square as f64).sqrt() as i32;
    let length = (root + source.between(-12, 12)).max(0);
    let squared = (length as u128) * (length as u128);

    let found = largest(&x, split);
    let expected = (0..2 * (k + 149)).fold(Whole::new(square as u64), |so_far, _| so_far.plus(&so_far));
    let above = squared << 40 > square * ((1 << 20) + 1) * ((1 << 20) + 1);
    let here = times(length as f32);
    let quotient = f64::from(length) / (square as f64).sqrt() - 1.0;
    let right = found == expected
        && reaches(here, &found) == (square <= squared)
        && keeps_within(here, &found) != above
        && (square == 0 || (excess(here, &found) / 16_777_216.0 - quotient).abs() <= 1.0e-13 * (1.0 + quotient));
    if !right {
        println!("EXACT: not as in 128 bits: {x:?}, split {split}, length {here}");
    }
    right
}
