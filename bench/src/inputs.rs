//! What is measured on: cloth-like pairs and polynomials from one seed, and the same on every machine.

use urtemval::{max_relative_norm, safe_time, Answer, Limits, Points, Split};

/// A pair with what a safe time is asked with.
pub struct Query {
    pub x0: Points,
    pub dx: Points,
    pub limits: Limits,
}

/// Pseudo-random numbers (xorshift).
pub struct Source(u64);

impl Source {
    pub fn new() -> Source {
        Source(0x9e37_79b9_7f4a_7c15)
    }

    fn bits(&mut self) -> u64 {
        self.0 ^= self.0 << 13;
        self.0 ^= self.0 >> 7;
        self.0 ^= self.0 << 17;
        self.0
    }

    /// From `low` to `high`.
    pub fn between(&mut self, low: f32, high: f32) -> f32 {
        let unit = (self.bits() >> 40) as f32 / 16_777_216.0;
        low + (high - low) * unit
    }

    fn point(&mut self, size: f32) -> [f32; 3] {
        [0; 3].map(|_| self.between(-size, size))
    }

    /// Two sides of about unit size, one above the other, which comes down by some length.
    pub fn pair(&mut self, split: Split) -> (Points, Points) {
        let (mut x0, mut dx) = ([[0.0; 3]; 4].map(|_| self.point(0.5)), [[0.0; 3]; 4].map(|_| self.point(0.1)));
        let (above, down) = (self.between(0.6, 1.5), self.between(0.0, 2.0));
        for i in split as usize..4 {
            x0[i][2] += above;
            dx[i][2] -= down;
        }
        (x0, dx)
    }
}

/// How a query ends.
#[derive(Clone, Copy, PartialEq)]
pub enum End {
    Free,
    Contact,
    /// Such a pair's u_max is 30,000 times the norm of its displacements, so that its steps are small.
    Budget,
}

/// So many queries with one end.
pub fn queries(split: Split, end: End, count: usize) -> Vec<Query> {
    let mut source = Source::new();
    let slower = if end == End::Budget { 30_000.0 } else { 1.0 };
    let query = || {
        let (x0, dx) = source.pair(split);
        let u_max = slower * max_relative_norm(&dx, split).expect("allowed");
        Query { x0, dx, limits: Limits { offset: 0.001, clearance: 0.002, max_t: 1.0, u_max } }
    };
    let ends_so = |q: &Query| match safe_time(&q.x0, &q.dx, split, q.limits).map(|safe| safe.answer) {
        Ok(Answer::Clear(_)) => end == End::Free,
        Ok(Answer::Contact(_)) => end == End::Contact,
        Ok(Answer::Budget(_)) => end == End::Budget,
        _ => false,
    };
    std::iter::repeat_with(query).filter(ends_so).take(count).collect()
}
