//! What a run of the laws met: each law by its kinds, and what the condition on powers of two is about.

use super::condition::{exactly, squares, Multiplied, Part};
use crate::model::{cross, Point, Points, Rules, BOUND, SLOWEST};
use crate::named::{named, print, unmet};

named! {
    /// What a run has to meet.
    Met,
    /// What each is.
    NAMES {
        Itself: "a pair itself",
        Edges1023: "edges, columns 1 0 2 3",
        Edges0132: "edges, columns 0 1 3 2",
        Edges1032: "edges, columns 1 0 3 2",
        Edges2301: "edges, columns 2 3 0 1: both exchanged",
        Face0213: "face, columns 0 2 1 3",
        Face1023: "face, columns 1 0 2 3",
        Face1203: "face, columns 1 2 0 3",
        Face2013: "face, columns 2 0 1 3",
        Face2103: "face, columns 2 1 0 3",
        Signs: "all signs changed",
        TimesUp: "times 2^k, k above 0",
        TimesDown: "times 2^k, k below 0",
        TimesZero: "times 2^k: a coordinate is zero",
        TimesEqual: "times 2^k: two coordinates across the split are equal, and not zero",
        TimesNorm: "times 2^k: the norm is zero",
        TimesBound: "times 2^k: a number comes to 2^20 in size",
        TimesLeast: "times 2^k: a square is 2^-126, before or after",
        TimesStands: "times 2^k: both source norms are below 2^-60, and not zero",
        TimesRaised: "times 2^k: both source norms are at least 2^-60",
        UpAcross: "times 2^k: up across 2^-60, the source norm multiplied and the norm not",
        DownAcross: "times 2^k: down across 2^-60, the source norm multiplied and the norm not",
        Rounded: "source norm not multiplied: a product with 2^k is rounded, and normal; all else is as it has to be",
        Vanished: "source norm not multiplied: a product with 2^k is rounded to zero; all else is as it has to be",
        Square: "source norm not multiplied: a square is not normal; all else is as it has to be, but for the sums",
        RefusedNotFinite: "refused by 1",
        RefusedLimits: "refused by 2: a number",
        RefusedSplit: "refused by 2: the split",
        NormZero: "a norm of zero",
        NotANumber: "refused: a squared difference that is NaN",
        Infinite: "refused: a squared difference that is infinite",
    }
}

pub struct Cover {
    counts: Vec<u64>,
    /// the smallest and the largest k by which a pair was multiplied: of a norm above zero, and of any
    powers: [(i32, i32); 2],
}

impl Cover {
    pub fn new() -> Cover {
        Cover { counts: vec![0; NAMES.len()], powers: [(0, 0); 2] }
    }

    pub fn note(&mut self, met: Met) {
        self.counts[met as usize] += 1;
    }

    pub fn note_where(&mut self, shown: &[(bool, Met)]) {
        shown.iter().filter(|(is_so, _)| *is_so).for_each(|&(_, met)| self.note(met));
    }

    /// Notes what a multiplied pair shows. Answers whether the law says something of it.
    pub fn multiplied(&mut self, both: &Multiplied) -> bool {
        let failing = both.failing();
        let [before, after] = both.norms;
        if failing.is_empty() {
            self.by_the_law(both);
        } else if f64::from(after) != exactly(before, both.k) {
            let (rounded, vanished) = (failing == [Part::Products], both.vanished());
            let of_squares = |part: &Part| matches!(part, Part::Squares | Part::Sums);
            self.note_where(&[
                (rounded && !vanished, Met::Rounded),
                (rounded && vanished, Met::Vanished),
                (failing.iter().all(of_squares), Met::Square),
            ]);
        }
        failing.is_empty()
    }

    fn by_the_law(&mut self, both: &Multiplied) {
        let &Multiplied { x, y, split, k, norms: [norm, after] } = both;
        let answered = |x: &Points| Rules::DOCUMENT.norm(x, split);
        let across = both.across() && f64::from(answered(&y)) != exactly(answered(&x), k);
        let any = |x: &Points, test: fn(f32) -> bool| x.iter().flatten().any(|&n| test(n));
        let equal = |(a, b): (Point, Point)| (0..3).any(|i| a[i] == b[i] && a[i] != 0.0);
        let least = |x: &Points| cross(x, split).any(|both| squares(both).contains(&f32::MIN_POSITIVE));
        self.note_where(&[
            (k > 0, Met::TimesUp),
            (k < 0, Met::TimesDown),
            (any(&x, |n| n == 0.0), Met::TimesZero),
            (cross(&x, split).any(equal), Met::TimesEqual),
            (norm == 0.0, Met::TimesNorm),
            (any(&y, |n| n.abs() == BOUND), Met::TimesBound),
            (least(&x) || least(&y), Met::TimesLeast),
            (norm > 0.0 && norm.max(after) < SLOWEST, Met::TimesStands),
            (norm.min(after) >= SLOWEST, Met::TimesRaised),
            (across && k > 0, Met::UpAcross),
            (across && k < 0, Met::DownAcross),
        ]);
        let powers = if norm == 0.0 { &mut self.powers[1..] } else { &mut self.powers[..] };
        powers.iter_mut().for_each(|(least, most)| (*least, *most) = (k.min(*least), k.max(*most)));
    }

    pub fn refused(&mut self, x: &Points, split: u32, refusal: u32) {
        let known = split == 2 || split == 3;
        let sums = |test: fn(f32) -> bool| known && cross(x, split).any(|both| test(squares(both).iter().sum()));
        self.note_where(&[
            (refusal == 1, Met::RefusedNotFinite),
            (refusal == 2 && known, Met::RefusedLimits),
            (refusal == 2 && !known, Met::RefusedSplit),
            (sums(f32::is_nan), Met::NotANumber),
            (sums(f32::is_infinite), Met::Infinite),
        ]);
    }

    pub fn pairs(&self) -> u64 {
        self.counts[Met::Itself as usize]
    }

    pub fn missing(&self) -> Vec<String> {
        unmet(NAMES, &self.counts)
    }

    pub fn print(&self) {
        println!("met, in pairs or calls:");
        print(NAMES, &self.counts);
        let [(least, most), (least_of_any, most_of_any)] = self.powers;
        println!("k from {least} to {most} where the norm is above zero, from {least_of_any} to {most_of_any} in all");
    }
}
