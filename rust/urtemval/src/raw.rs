//! The functions of the archive as they are, with the records that they answer: what `include/urtemval.h` declares.
//!
//! A `refusal` of 0 means that a call is not refused; then the other fields hold the answer. The functions of the
//! crate's root wrap these and are safe. Calling one here is sound whenever its pointers are references, which they
//! are by their types, and the thread's float setting is the usual one (the header says which); it is `unsafe`
//! because nothing checks these declarations against the archive but the project's own tests.

use crate::{Limits, Points};

/// A safe time.
#[derive(Clone, Copy, Debug)]
#[repr(C)]
pub struct SafeTime {
    /// 0, or the refusal's number.
    pub refusal: u32,
    /// [`TOUCHING`], [`CONTACT`], [`CLEAR`], [`BUDGET`] or [`REFUSED`].
    pub kind: u32,
    /// From 0 to the time limit.
    pub time: f32,
    /// How many times were tried.
    pub probes: u32,
    /// How often the last span was halved.
    pub halvings: u32,
}

/// A squared distance.
#[derive(Clone, Copy, Debug)]
#[repr(C)]
pub struct Distance {
    /// 0, or the refusal's number.
    pub refusal: u32,
    /// The squared distance.
    pub squared: f32,
    /// From the first side to the second.
    pub direction: [f32; 3],
    /// Which candidate gave both.
    pub candidate: u32,
}

/// Roots, or times.
#[derive(Clone, Copy, Debug)]
#[repr(C)]
pub struct Roots {
    /// 0, or the refusal's number.
    pub refusal: u32,
    /// How many there are.
    pub count: u32,
    /// The first `count` are the roots, the others are zero.
    pub roots: [f32; 3],
}

/// One number.
#[derive(Clone, Copy, Debug)]
#[repr(C)]
pub struct Value {
    /// 0, or the refusal's number.
    pub refusal: u32,
    /// The number.
    pub value: f32,
}

/// The kind of a safe time that is [`Answer::Touching`](crate::Answer::Touching).
pub const TOUCHING: u32 = 0;
/// The kind of a safe time that is [`Answer::Contact`](crate::Answer::Contact).
pub const CONTACT: u32 = 1;
/// The kind of a safe time that is [`Answer::Clear`](crate::Answer::Clear).
pub const CLEAR: u32 = 2;
/// The kind of a safe time that is [`Answer::Budget`](crate::Answer::Budget).
pub const BUDGET: u32 = 3;
/// The kind of a safe time that is refused.
pub const REFUSED: u32 = 4;

extern "C" {
    /// [`safe_time`](crate::safe_time) with [`Limits`].
    pub fn urtemval_safe_time(x0: &Points, dx: &Points, split: usize, limits: Limits) -> SafeTime;
    /// [`safe_time`](crate::safe_time) with [`Allowing`](crate::Allowing).
    pub fn urtemval_safe_time_allowing(
        x0: &Points,
        dx: &Points,
        split: usize,
        limits: Limits,
        allowance: u32,
    ) -> SafeTime;
    /// [`squared_distance`](crate::squared_distance).
    pub fn urtemval_squared_distance(x: &Points, split: usize) -> Distance;
    /// [`max_relative_norm`](crate::max_relative_norm).
    pub fn urtemval_max_relative_norm(x: &Points, split: usize) -> Value;
    /// [`scale_pair`](crate::scale_pair).
    pub fn urtemval_scale_pair(x: &mut Points, dx: &mut Points, max_t: f32) -> Value;
    /// [`coplanar_times`](crate::coplanar_times).
    pub fn urtemval_coplanar_times(x0: &Points, dx: &Points) -> Roots;
    /// [`cubic_roots`](crate::cubic_roots).
    pub fn urtemval_cubic_roots(c0: f32, c1: f32, c2: f32, c3: f32, t: f32, epsilon: f32) -> Roots;
    /// [`quadratic_roots`](crate::quadratic_roots).
    pub fn urtemval_quadratic_roots(c0: f32, c1: f32, c2: f32) -> Roots;
    /// [`square_root`](crate::square_root).
    pub fn urtemval_square_root(x: f32) -> Value;
}
