//! How far along a proposed move may two pieces of cloth or skin go?
//!
//! A drape solver proposes a move for every point of a mesh. For a face and a point, or for two edges, [`safe_time`]
//! answers the time from 0 to 1 at which the move has to be cut, in single precision. This crate is a thin layer over
//! a library that is proved, function by function, to answer what its rules say (docs/01-scope.md), for every input:
//! what is not allowed is refused with a reason, and every call ends.
//!
//! ```
//! use urtemval::{max_relative_norm, safe_time, Answer, Limits, Split, LEAST_U_MAX};
//!
//! // Two crossing edges, half a unit apart; the upper one falls by 1.
//! let x0 = [[-1.0, 0.0, 0.0], [1.0, 0.0, 0.0], [0.0, -1.0, 0.5], [0.0, 1.0, 0.5]];
//! let dx = [[0.0; 3], [0.0; 3], [0.0, 0.0, -1.0], [0.0, 0.0, -1.0]];
//! let limits = Limits {
//!     offset: 0.0,
//!     clearance: 0.25,
//!     max_t: 1.0,
//!     u_max: max_relative_norm(&dx, Split::EdgeEdge)?.max(LEAST_U_MAX),
//! };
//! match safe_time(&x0, &dx, Split::EdgeEdge, limits)?.answer {
//!     Answer::Contact(t) => assert!(0.2499 < t && t < 0.25),
//!     other => panic!("{other:?}"),
//! }
//! # Ok::<(), urtemval::Refusal>(())
//! ```
//!
//! Everything here may be called from many threads at once, and [`safe_times`] asks for many pairs by as many threads
//! as the machine runs.
//!
//! # In a solver
//!
//! - **One time is for the whole pair.** What is said of it holds where its four points all move by the same t. Cut the
//!   whole move by the smallest time of all pairs. Cutting each point by the smallest time of its own pairs is not
//!   covered: a sheet that a floor stops at 0.4, and a point that falls with the sheet and is clear of it at 1, end
//!   with the point below the sheet.
//! - **Leave out pairs whose sides share a point.** Their distance is 0, up to rounding: they are touching, or with an
//!   offset of 0 sometimes [`Answer::Budget`] at 0.
//! - **`u_max` must not be too small**, or pairs pass through each other and are told as clear.
//!   `max_relative_norm(&dx, split)?.max(LEAST_U_MAX)` is right, also for a pair at rest, whose norm is 0.
//! - **Move the points as the library does**: `x + t * dx`, the product rounded and then the sum, and not `mul_add`.
//!   What is said of the distance at t is said of these points.
//! - **Contact stops just beyond park = offset + clearance; steps aim at dip = offset + clearance / 2.** At the end of
//!   a clear move, or of a move that another pair's time cuts, a pair may be anywhere from dip up, and the next call
//!   may find it in the band: beyond the offset, and not beyond park.
//! - **A pair that starts in the band is held to its first distance in place of park**: no time that is tried may be
//!   nearer than the start. At dip or nearer its steps are zero, unless coordinates are coarse beside the distance: it
//!   is answered [`Answer::Budget`] at 0 and cannot move, not even apart. Ask with a smaller clearance for this pair:
//!   at most half of its distance less the offset keeps the start beyond park, rounding aside.
//! - **Centring and scaling** ([`scale_pair`]) change the limits of a pair, too.
//! - **A preview** tries fewer times ([`Limits::allowing`], [`safe_times_allowing`]). Any answer but
//!   [`Answer::Budget`] is then the last word, and no time is after that of the whole call.
//!
//! `include/urtemval.h` has the steps for a pair (centre, scale, ask) and what to do after each answer and refusal;
//! docs/GUARANTEES.md says in full what is proved, what is measured, and what is not promised.
//!
//! # Panics
//!
//! A refusal's number, a kind of safe time or a count of roots that this crate does not know comes from an archive of
//! another version: the call panics with a message that says so. No call panics otherwise.
//!
//! # Numbers allowed
//!
//! | What | Range, both ends in |
//! |---|---|
//! | coordinates, displacements, coefficients | finite, size at most 2^20 |
//! | offset, clearance, epsilon | 0 to 2^20 |
//! | `max_t` | 0 to 1 |
//! | `t` of a cubic | above 0, at most 1 |
//! | `u_max` | 2^-60 to 2^60 |
//! | allowance | 1 to 4,096 |
//!
//! Any other number is refused, by [`Refusal::NotFinite`] before [`Refusal::OutOfRange`].
//!
//! # The float setting
//!
//! The library counts on the processor's usual setting for floats, with which every thread starts and which Rust counts
//! on too: rounding to nearest, and subnormal numbers not flushed to zero.
//!
//! # Linking
//!
//! The library is the archive `liburtemval.a`, code for x86-64 Linux that needs no other library. The build script
//! has the project make it, or takes the one in the folder that the variable `URTEMVAL_LIB_DIR` names. For another
//! target the build stops with an error that says so.

#![deny(missing_docs)]

mod many;
pub mod raw;
mod refusal;

pub use many::{safe_times, safe_times_allowing, Query};
pub use refusal::Refusal;

use refusal::{unknown, unless_refused};
use std::ops::Deref;

/// Four points of three numbers each, or as many displacements.
pub type Points = [[f32; 3]; 4];

/// The least `u_max` that is allowed, 2^-60: for a pair at rest, or nearly so.
pub const LEAST_U_MAX: f32 = 1.0 / (1u64 << 60) as f32;

/// How many times a safe time may try: at most so many, and so many where its caller names no other number.
pub const FULL_ALLOWANCE: u32 = 4096;

/// How four points make a pair: where its second side starts.
#[derive(Clone, Copy, Debug, PartialEq, Eq, Hash)]
#[repr(usize)]
pub enum Split {
    /// Points 0 and 1 are an edge, and points 2 and 3 the other.
    EdgeEdge = 2,
    /// Points 0 to 2 are a face, and point 3 is a vertex.
    FaceVertex = 3,
}

/// What a safe time is asked with, beside the pair.
#[derive(Clone, Copy, Debug, PartialEq)]
#[repr(C)]
pub struct Limits {
    /// At this distance, or nearer, the two sides count as touching.
    pub offset: f32,
    /// What lies between the offset and park, just beyond which a contact is answered, unless the pair starts nearer.
    /// Steps aim at its middle: on the way, and at the end of a clear move, a pair may be anywhere from dip = offset +
    /// clearance / 2 up.
    pub clearance: f32,
    /// The time limit, at most 1: the end of the displacements.
    pub max_t: f32,
    /// No point of one side comes nearer to one of the other faster than this. [`max_relative_norm`] of the
    /// displacements is right, or [`LEAST_U_MAX`] where that is larger. Too small a number lets pairs pass through.
    pub u_max: f32,
}

impl Limits {
    /// These limits with the number of times that may be tried, 1 to [`FULL_ALLOWANCE`]: for a preview, which is to
    /// cost little. With [`FULL_ALLOWANCE`] it is the call with the limits alone.
    ///
    /// Any answer but [`Answer::Budget`] is the answer of every larger allowance too, counts included, and a budget is
    /// one with every smaller allowance too. As the allowance grows the time never falls: that of a preview is not
    /// after the whole call's.
    ///
    /// ```
    /// use urtemval::{safe_time, Answer, Limits, Refusal, Split};
    ///
    /// // two strips that slide along each other, so near that each step is 2^-21
    /// let height = 3.0 / 4_194_304.0;
    /// let x0 = [[0.0; 3], [1.0, 0.0, 0.0], [0.0, 0.0, height], [1.0, 0.0, height]];
    /// let dx = [[0.0; 3], [0.0; 3], [1.0, 0.0, 0.0], [1.0, 0.0, 0.0]];
    /// let limits = Limits { offset: 0.0, clearance: 1.0 / 2_097_152.0, max_t: 1.0, u_max: 1.0 };
    ///
    /// let preview = safe_time(&x0, &dx, Split::EdgeEdge, limits.allowing(16))?;
    /// assert_eq!((preview.answer, preview.probes), (Answer::Budget(16.0 / 2_097_152.0), 16));
    /// let whole = safe_time(&x0, &dx, Split::EdgeEdge, limits)?;
    /// assert_eq!((whole.answer, whole.probes), (Answer::Budget(4096.0 / 2_097_152.0), 4096));
    /// let none = safe_time(&x0, &dx, Split::EdgeEdge, limits.allowing(0));
    /// assert_eq!(none, Err(Refusal::OutOfRange));
    /// # Ok::<(), Refusal>(())
    /// ```
    #[inline]
    pub const fn allowing(self, allowance: u32) -> Allowing {
        Allowing {
            limits: self,
            allowance,
        }
    }
}

/// [`Limits`] with the number of times that may be tried: [`Limits::allowing`] makes it, and [`safe_time`] takes it.
#[derive(Clone, Copy, Debug, PartialEq)]
pub struct Allowing {
    /// The limits.
    pub limits: Limits,
    /// How many times may be tried: 1 to [`FULL_ALLOWANCE`].
    pub allowance: u32,
}

/// [`FULL_ALLOWANCE`] is what limits alone allow.
impl From<Limits> for Allowing {
    #[inline]
    fn from(limits: Limits) -> Allowing {
        limits.allowing(FULL_ALLOWANCE)
    }
}

/// How a safe time ends, with its time. Below, d(t) is the computed squared distance of the points `x0 + t dx`, park is
/// offset + clearance, and the threshold is the smaller of park² and the `f32` just below d at the start: park² from a
/// start beyond park, and never below offset². Nothing is said of d at a time that was not tried.
#[derive(Clone, Copy, Debug, PartialEq)]
pub enum Answer {
    /// At the start d is at most offset². The time is 0 whatever the displacements are, also where the pair moves
    /// apart, and asking again answers the same: such a pair is parted by other means, or left out.
    Touching,
    /// d exceeds the threshold at this time, and at the next `f32` it does not.
    Contact(f32),
    /// d exceeds the threshold at the start and at every time that was tried. The time is the time limit, which need
    /// not be one of them: the pair may end nearer than park, and nearer than it starts.
    Clear(f32),
    /// d exceeds the threshold at this time, and as many probes are counted as are allowed: 4,096, or those of an
    /// [`Allowing`].
    Budget(f32),
}

impl Answer {
    /// The time at which the pair's move is to be cut.
    #[inline]
    pub fn time(self) -> f32 {
        match self {
            Answer::Touching => 0.0,
            Answer::Contact(time) | Answer::Clear(time) | Answer::Budget(time) => time,
        }
    }
}

/// A safe time, and what it took to find it.
#[derive(Clone, Copy, Debug, PartialEq)]
pub struct SafeTime {
    /// How it ends, with the time.
    pub answer: Answer,
    /// How many times were tried: at most as many as are allowed, 4,096 or those of an [`Allowing`].
    pub probes: u32,
    /// How often the last span was halved: at most 256.
    pub halvings: u32,
}

impl SafeTime {
    /// The time at which the pair's move is to be cut.
    #[inline]
    pub fn time(self) -> f32 {
        self.answer.time()
    }
}

/// The distance of a pair's two sides.
#[derive(Clone, Copy, Debug, PartialEq)]
pub struct Distance {
    /// The squared distance.
    pub squared: f32,
    /// From the nearest place on the first side to the nearest on the second.
    pub direction: [f32; 3],
    /// Which candidate gave both, from 0 (docs/01-scope.md, "Our distance rules").
    pub candidate: u32,
}

/// At most three roots, as a slice of numbers.
#[derive(Clone, Copy, Debug)]
pub struct Roots {
    count: usize,
    places: [f32; 3],
}

impl Deref for Roots {
    type Target = [f32];

    #[inline]
    fn deref(&self) -> &[f32] {
        &self.places[..self.count]
    }
}

impl PartialEq for Roots {
    fn eq(&self, other: &Roots) -> bool {
        self[..] == other[..]
    }
}

/// How far along the move `dx` the pair at `x0` may go: [`Answer`] says what holds at the time. The crate's page says
/// what a solver has to mind. It takes [`Limits`], or with another number of times that may be tried
/// [`Limits::allowing`].
///
/// # Errors
///
/// [`Refusal::NotFinite`] and [`Refusal::OutOfRange`].
///
/// ```
/// use urtemval::{safe_time, Answer, Limits, Refusal, Split};
///
/// let x0 = [[0.0, 0.0, 0.0], [1.0, 0.0, 0.0], [0.0, 1.0, 0.0], [0.25, 0.25, 1.0]];
/// let rising = [[0.0; 3], [0.0; 3], [0.0; 3], [0.0, 0.0, 1.0]];
/// let limits = Limits { offset: 0.0, clearance: 0.5, max_t: 1.0, u_max: 1.0 };
/// let safe = safe_time(&x0, &rising, Split::FaceVertex, limits)?;
/// assert_eq!(safe.answer, Answer::Clear(1.0));
///
/// // park is 1.5 and dip 0.75: the pair starts in the band, above dip, and rises out of it
/// let wide = Limits { clearance: 1.5, ..limits };
/// assert_eq!(safe_time(&x0, &rising, Split::FaceVertex, wide)?.answer, Answer::Clear(1.0));
///
/// // dip is 1, where the pair starts: it cannot move, but with half of its distance as the clearance it can
/// let wider = Limits { clearance: 2.0, ..limits };
/// assert_eq!(safe_time(&x0, &rising, Split::FaceVertex, wider)?.answer, Answer::Budget(0.0));
/// assert_eq!(safe_time(&x0, &rising, Split::FaceVertex, limits)?.answer, Answer::Clear(1.0));
/// # Ok::<(), Refusal>(())
/// ```
#[inline]
pub fn safe_time(
    x0: &Points,
    dx: &Points,
    split: Split,
    limits: impl Into<Allowing>,
) -> Result<SafeTime, Refusal> {
    let Allowing { limits, allowance } = limits.into();
    // SAFETY: references are neither null nor dangling, and `x0` and `dx` are only read.
    let told =
        unsafe { raw::urtemval_safe_time_allowing(x0, dx, split as usize, limits, allowance) };
    unless_refused(told.refusal, ())?;
    let answer = match told.kind {
        raw::TOUCHING => Answer::Touching,
        raw::CONTACT => Answer::Contact(told.time),
        raw::CLEAR => Answer::Clear(told.time),
        raw::BUDGET => Answer::Budget(told.time),
        kind => unknown("kind", kind),
    };
    Ok(SafeTime {
        answer,
        probes: told.probes,
        halvings: told.halvings,
    })
}

/// The squared distance of the two sides of `x`, with its direction and its candidate.
///
/// # Errors
///
/// [`Refusal::NotFinite`] and [`Refusal::OutOfRange`].
///
/// ```
/// use urtemval::{squared_distance, Split};
///
/// let x = [[0.0, 0.0, 0.0], [4.0, 0.0, 0.0], [0.0, 4.0, 0.0], [1.0, 1.0, 3.0]];
/// let found = squared_distance(&x, Split::FaceVertex)?;
/// assert_eq!(found.squared, 9.0);
/// assert_eq!(found.direction, [0.0, 0.0, 3.0]);
/// # Ok::<(), urtemval::Refusal>(())
/// ```
#[inline]
pub fn squared_distance(x: &Points, split: Split) -> Result<Distance, Refusal> {
    // SAFETY: as in `safe_time`.
    let told = unsafe { raw::urtemval_squared_distance(x, split as usize) };
    unless_refused(
        told.refusal,
        Distance {
            squared: told.squared,
            direction: told.direction,
            candidate: told.candidate,
        },
    )
}

/// The largest distance between a point of the first side and a point of the second. It errs upward: an answer of 2^-60
/// ([`LEAST_U_MAX`]) or more is not below the exact largest distance of the given points, and not above it times
/// 1 + 2^-20; a smaller one is rounded either way. Of displacements it is the greatest relative speed, right for `u_max`
/// where it is not below [`LEAST_U_MAX`]. It is the same with the points of a side in any order, with both edges
/// exchanged, and with the sign of every number changed.
///
/// # Errors
///
/// [`Refusal::NotFinite`] and [`Refusal::OutOfRange`].
///
/// ```
/// use urtemval::{max_relative_norm, Split};
///
/// let dx = [[0.0; 3], [0.0, 0.0, 0.0], [0.0, 3.0, 4.0], [0.0, 1.0, 0.0]];
/// let norm = max_relative_norm(&dx, Split::EdgeEdge)?;
/// assert!(5.0 <= norm && norm < 5.00001);
/// # Ok::<(), urtemval::Refusal>(())
/// ```
#[inline]
pub fn max_relative_norm(x: &Points, split: Split) -> Result<f32, Refusal> {
    // SAFETY: as in `safe_time`.
    let told = unsafe { raw::urtemval_max_relative_norm(x, split as usize) };
    unless_refused(told.refusal, told.value)
}

/// Multiplies points and displacements so that the largest entry of `x`, and of `x + max_t dx`, is about 0.99, and
/// answers the factor. Where it is refused both stay as they were.
///
/// A safe time of the scaled pair is asked with offset and clearance multiplied by the factor, and with `u_max` taken
/// anew from the scaled displacements: the old one is too small where the factor is above 1, and lets pairs pass
/// through. The time then holds for the pair as it was up to rounding only. To centre a pair first, subtract the mean
/// of its four points from each of them; displacements are differences, and stay.
///
/// # Errors
///
/// [`Refusal::NotFinite`], [`Refusal::OutOfRange`], [`Refusal::NoFactor`] and [`Refusal::ScaledNotFinite`].
///
/// ```
/// use urtemval::{scale_pair, Refusal};
///
/// let mut x = [[-2.0, 0.0, 0.0], [1.0, 0.0, 0.0], [0.0, 1.0, 0.0], [0.0, 0.0, 1.0]];
/// let mut dx = [[0.0, 0.0, 1.0]; 4];
/// assert_eq!(scale_pair(&mut x, &mut dx, 1.0), Ok(0.495));
/// assert_eq!((x[0][0], dx[3][2]), (-0.99, 0.495));
///
/// let mut zeros = [[0.0; 3]; 4];
/// assert_eq!(scale_pair(&mut zeros.clone(), &mut zeros, 1.0), Err(Refusal::NoFactor));
/// ```
#[inline]
pub fn scale_pair(x: &mut Points, dx: &mut Points, max_t: f32) -> Result<f32, Refusal> {
    // SAFETY: references are neither null nor dangling, and two `&mut` do not overlap.
    let told = unsafe { raw::urtemval_scale_pair(x, dx, max_t) };
    unless_refused(told.refusal, told.value)
}

/// The times from 0 to 1 at which the four points `x0 + t dx` lie in one plane, in the order in which the root finder
/// meets them.
///
/// # Errors
///
/// [`Refusal::NotFinite`], [`Refusal::OutOfRange`], [`Refusal::FlatSpan`], [`Refusal::GuessOutside`] and
/// [`Refusal::Stuck`].
///
/// ```
/// use urtemval::coplanar_times;
///
/// let x0 = [[0.0, 0.0, 0.0], [1.0, 0.0, 0.0], [0.0, 1.0, 0.0], [0.25, 0.25, 1.0]];
/// let dx = [[0.0; 3], [0.0; 3], [0.0; 3], [0.0, 0.0, -2.0]];
/// assert_eq!(coplanar_times(&x0, &dx)?[..], [0.5]);
/// # Ok::<(), urtemval::Refusal>(())
/// ```
#[inline]
pub fn coplanar_times(x0: &Points, dx: &Points) -> Result<Roots, Refusal> {
    // SAFETY: as in `safe_time`.
    roots(unsafe { raw::urtemval_coplanar_times(x0, dx) })
}

/// The roots in 0..t of c\[0\] + c\[1\] x + c\[2\] x² + c\[3\] x³, in the order of the spans between turning points.
/// Each lies in 0..t. A linear polynomial's is the fraction of the way from 0 to t at which it crosses zero, times t.
/// `epsilon` is the size of a value at which a root is taken as found.
///
/// # Errors
///
/// [`Refusal::NotFinite`], [`Refusal::OutOfRange`], [`Refusal::FlatSpan`], [`Refusal::GuessOutside`] and
/// [`Refusal::Stuck`].
///
/// ```
/// // (x - 0.5) (x² + 1)
/// let roots = urtemval::cubic_roots([-0.5, 1.0, -0.5, 1.0], 1.0, 0.0)?;
/// assert_eq!(roots[..], [0.5]);
/// // x - 0.25, on half the range
/// let roots = urtemval::cubic_roots([-0.25, 1.0, 0.0, 0.0], 0.5, 0.0)?;
/// assert_eq!(roots[..], [0.25]);
/// # Ok::<(), urtemval::Refusal>(())
/// ```
#[inline]
pub fn cubic_roots(c: [f32; 4], t: f32, epsilon: f32) -> Result<Roots, Refusal> {
    // SAFETY: numbers by value.
    roots(unsafe { raw::urtemval_cubic_roots(c[0], c[1], c[2], c[3], t, epsilon) })
}

/// The roots of c\[0\] + c\[1\] x + c\[2\] x²: none or two, the smaller first. A root may be infinite, where a division
/// overflows.
///
/// # Errors
///
/// [`Refusal::NotFinite`], [`Refusal::OutOfRange`] and [`Refusal::NotQuadratic`].
///
/// ```
/// assert_eq!(urtemval::quadratic_roots([2.0, -3.0, 1.0])?[..], [1.0, 2.0]);
/// assert_eq!(urtemval::quadratic_roots([1.0, 0.0, 1.0])?.len(), 0);
/// # Ok::<(), urtemval::Refusal>(())
/// ```
#[inline]
pub fn quadratic_roots(c: [f32; 3]) -> Result<Roots, Refusal> {
    // SAFETY: numbers by value.
    roots(unsafe { raw::urtemval_quadratic_roots(c[0], c[1], c[2]) })
}

/// The `f32` nearest to the exact square root of `x`, ties to even; plus zero of either zero.
///
/// # Errors
///
/// [`Refusal::NotFinite`], and [`Refusal::OutOfRange`] below zero.
///
/// ```
/// assert_eq!(urtemval::square_root(2.0), Ok(std::f32::consts::SQRT_2));
/// assert_eq!(urtemval::square_root(-1.0), Err(urtemval::Refusal::OutOfRange));
/// ```
#[inline]
pub fn square_root(x: f32) -> Result<f32, Refusal> {
    // SAFETY: a number by value.
    let told = unsafe { raw::urtemval_square_root(x) };
    unless_refused(told.refusal, told.value)
}

#[inline]
fn roots(told: raw::Roots) -> Result<Roots, Refusal> {
    unless_refused(told.refusal, ())?;
    if told.count > 3 {
        unknown("count", told.count)
    }
    Ok(Roots {
        count: told.count as usize,
        places: told.roots,
    })
}
