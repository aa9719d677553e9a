//! The original's answer to a call.

use std::cell::Cell;
use std::panic::{catch_unwind, AssertUnwindSafe};

use original::ccd3;

use super::texts;
use crate::calls::Call;
use crate::functions::Function;
use crate::model::Rules;
use crate::words::Words;

/// What the original did.
pub enum Outcome {
    /// It answered. The answer of a safe time is that of each of its texts.
    Answered(Words),
    /// The hinted text answered, from a start in the band.
    Hinted(Words),
    /// It stopped by an assertion.
    Stopped,
    /// Its text as it stands and the hinted text differ, from a start outside of the band.
    Parted,
}

thread_local! {
    static GUARDED: Cell<bool> = const { Cell::new(false) };
}

/// Has the original's assertions say nothing; every other panic is printed.
pub fn guard() {
    std::panic::set_hook(Box::new(|why| {
        if !GUARDED.with(Cell::get) {
            eprintln!("{why}");
        }
    }));
}

/// The original's answer. The caller has seen to it that the scaling ends.
pub fn by_original(call: &Call) -> Outcome {
    if call.function.is_safe_time() {
        texts::safe_time(call)
    } else {
        guarded(|| original_words(call)).map_or(Outcome::Stopped, Outcome::Answered)
    }
}

/// What the original answers, where no assertion of it stops it.
pub fn guarded(answer: impl FnOnce() -> Words) -> Option<Words> {
    GUARDED.with(|guarded| guarded.set(true));
    let answer = catch_unwind(AssertUnwindSafe(answer));
    GUARDED.with(|guarded| guarded.set(false));
    answer.ok()
}

fn original_words(call: &Call) -> Words {
    use original::{edge3, mat3x4_array_of_cols as columns, polynomial_root as polynomial};
    let (number, points) = (|name| call.number(name), |name| call.points(name));
    let answered = Words::new().word(0);
    let with_roots = |roots: &[f32]| {
        let unused = 3 - roots.len();
        answered.word(roots.len() as u32).numbers(roots).numbers(&[0.0; 3][..unused])
    };
    match call.function {
        Function::SquareRoot => answered.numbers(&[number("x").sqrt()]),
        Function::Lerp => answered.numbers(&edge3::lerp(&call.point("p0"), &call.point("p1"), number("ratio"))),
        Function::AddScaled => answered.points(&columns::add_scaled(&points("x0"), &points("dx"), number("t"))),
        Function::Centerize => {
            let mut x = points("x");
            columns::centerize(&mut x);
            answered.points(&x)
        }
        Function::ScaleInPlace => {
            let mut x = points("x");
            columns::scale_in_place(&mut x, number("s"));
            answered.points(&x)
        }
        Function::SquaredDistance => {
            let found = Rules::DOCUMENT.distance(&points("x"), call.word("split"));
            answered.numbers(&[found.squared]).numbers(&found.direction).word(found.candidate)
        }
        Function::MaxRelativeNorm => {
            let x = points("x");
            let norm = match call.word("split") {
                2 => ccd3::max_relative_norm::<f32, 2>(&x),
                _ => ccd3::max_relative_norm::<f32, 3>(&x),
            };
            answered.numbers(&[norm])
        }
        Function::NormalizeCenterizedConfiguration => {
            let (mut x, mut dx) = (points("x"), points("dx"));
            match ccd3::normalize_centerized_configuration(&mut x, &mut dx, number("max_t")) {
                Some(factor) => answered.numbers(&[factor]).points(&x).points(&dx),
                None => Words::new().word(4).word(0).points(&x).points(&dx),
            }
        }
        Function::QuadraticRoot => match polynomial::quadratic_root(number("c0"), number("c1"), number("c2")) {
            Some(roots) => with_roots(&roots),
            None => with_roots(&[]),
        },
        Function::CubicRootsInRangeZeroToT => {
            let ([c0, c1, c2, c3], t) = (["c0", "c1", "c2", "c3"].map(number), number("t"));
            with_roots(&polynomial::cubic_roots_in_range_zero_to_t(c0, c1, c2, c3, t, number("epsilon")))
        }
        Function::CoplanarTimeMat3x4 => with_roots(&ccd3::coplanar_time_mat3x4(&points("x0"), &points("dx"))),
        Function::MaximumSafeTimeAccurate | Function::MaximumSafeTimeAllowing => unreachable!("it has texts"),
    }
}
