//! What a wrong norm makes of two columns: of i, before the split, and j.

use crate::model::{dot, squared_difference, Points};

/// The squared difference where it is to count.
fn counted(counts: bool, x: &Points, i: usize, j: usize) -> f32 {
    if counts {
        squared_difference(x, i, j)
    } else {
        0.0
    }
}

pub fn column_0_alone(x: &Points, i: usize, j: usize) -> f32 {
    counted(i == 0, x, i, j)
}

pub fn column_3_alone(x: &Points, i: usize, j: usize) -> f32 {
    counted(j == 3, x, i, j)
}

pub fn two_apart(x: &Points, i: usize, j: usize) -> f32 {
    counted(j == i + 2, x, i, j)
}

/// Of the three differences those that count.
fn of_those(counts: fn(f32, f32) -> bool, x: &Points, i: usize, j: usize) -> f32 {
    let d = [0, 1, 2].map(|c| if counts(x[i][c], x[j][c]) { x[i][c] - x[j][c] } else { 0.0 });
    dot(d, d)
}

/// Those in which the first side has the larger number by size.
pub fn first_larger(x: &Points, i: usize, j: usize) -> f32 {
    of_those(|a, b| a.abs() > b.abs(), x, i, j)
}

pub fn above_zero(x: &Points, i: usize, j: usize) -> f32 {
    of_those(|a, b| a > b, x, i, j)
}

/// Those of numbers whose sum is above zero.
pub fn sum_above_zero(x: &Points, i: usize, j: usize) -> f32 {
    of_those(|a, b| a > -b, x, i, j)
}

/// The slack of coordinates, which belongs to the directional step.
pub fn with_slack(x: &Points, i: usize, j: usize) -> f32 {
    squared_difference(x, i, j) + 6.2e-7
}
