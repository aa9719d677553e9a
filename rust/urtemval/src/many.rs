//! Safe times of many pairs, by as many threads as the machine runs at once.

use crate::{safe_time, Limits, Points, Refusal, SafeTime, Split, FULL_ALLOWANCE};
use std::num::NonZeroUsize;
use std::sync::Mutex;
use std::thread;

/// What one safe time is asked with.
#[derive(Clone, Copy, Debug, PartialEq)]
pub struct Query {
    /// The four points.
    pub x0: Points,
    /// Their displacements.
    pub dx: Points,
    /// Which of them make the first side.
    pub split: Split,
    /// The limits.
    pub limits: Limits,
}

impl Query {
    /// Its [`safe_time`].
    #[inline]
    pub fn safe_time(&self) -> Result<SafeTime, Refusal> {
        self.safe_time_allowing(FULL_ALLOWANCE)
    }

    /// Its [`safe_time`] with so many times that may be tried ([`Limits::allowing`]).
    #[inline]
    pub fn safe_time_allowing(&self, allowance: u32) -> Result<SafeTime, Refusal> {
        let limits = self.limits.allowing(allowance);
        safe_time(&self.x0, &self.dx, self.split, limits)
    }
}

/// How many pairs a thread takes at a time: enough that taking them costs nothing beside them, few enough that the
/// threads end at nearly the same time, though some pairs take thousands of times as long as others.
const SHARE: usize = 128;

/// The safe times of any number of pairs, in their order: what [`Query::safe_time`] answers for each.
///
/// The work is shared out among as many threads as the machine runs at once; the calling thread is one of them. A pair
/// that is refused does not stop the others. The answers do not depend on the number of threads. A move of all pairs is
/// cut by the smallest of the times.
///
/// ```
/// use urtemval::{safe_times, Answer, Limits, Query, Refusal, Split};
///
/// let falling = Query {
///     x0: [[0.0, 0.0, 0.0], [1.0, 0.0, 0.0], [0.0, 1.0, 0.0], [0.25, 0.25, 1.0]],
///     dx: [[0.0; 3], [0.0; 3], [0.0; 3], [0.0, 0.0, -2.0]],
///     split: Split::FaceVertex,
///     limits: Limits { offset: 0.125, clearance: 0.125, max_t: 1.0, u_max: 2.0 },
/// };
/// let mut broken = falling;
/// broken.dx[3][2] = f32::NAN;
///
/// let answers = safe_times(&[falling, broken]);
/// assert!(matches!(answers[0].unwrap().answer, Answer::Contact(t) if 0.37 < t && t < 0.375));
/// assert_eq!(answers[1], Err(Refusal::NotFinite));
/// ```
pub fn safe_times(queries: &[Query]) -> Vec<Result<SafeTime, Refusal>> {
    safe_times_allowing(queries, FULL_ALLOWANCE)
}

/// [`safe_times`] with so many times that each pair may try: what [`Query::safe_time_allowing`] answers for each. A
/// preview of a move costs little with a small allowance, and no time of it is after that of the whole call
/// ([`Limits::allowing`]).
pub fn safe_times_allowing(queries: &[Query], allowance: u32) -> Vec<Result<SafeTime, Refusal>> {
    // every place is written below
    let mut answers = vec![Err(Refusal::NotFinite); queries.len()];
    let shares = Mutex::new(queries.chunks(SHARE).zip(answers.chunks_mut(SHARE)));
    let work = || loop {
        let share = shares
            .lock()
            .expect("no thread panics while it takes a share")
            .next();
        match share {
            Some((asked, answered)) => answer_all(asked, allowance, answered),
            None => break,
        }
    };
    let helpers = helpers(queries.len());
    thread::scope(|scope| {
        for _ in 0..helpers {
            // where the system has no more threads to give, those that run do the work
            if thread::Builder::new().spawn_scoped(scope, work).is_err() {
                break;
            }
        }
        work();
    });
    answers
}

/// The answers of one share, each into its place.
fn answer_all(asked: &[Query], allowance: u32, answered: &mut [Result<SafeTime, Refusal>]) {
    for (query, answer) in asked.iter().zip(answered) {
        *answer = query.safe_time_allowing(allowance);
    }
}

/// How many threads to start beside the calling one: no more than the machine runs at once, nor than there are shares.
fn helpers(queries: usize) -> usize {
    let threads = thread::available_parallelism().map_or(1, NonZeroUsize::get);
    threads.min((queries + SHARE - 1) / SHARE).saturating_sub(1)
}
