//! The model's answer to a call.

use super::{allowance_of, limits_of, REFUSED};
use crate::calls::Call;
use crate::functions::Function;
use crate::model::{Points, Refusal, Roots, Rules};
use crate::words::Words;

/// The rules' answer.
pub fn by_model(rules: &Rules, call: &Call) -> Words {
    let refused = |refusal: Refusal| {
        let zeros = call.function.answers() - 1;
        (0..zeros).fold(Words::new().word(refusal), |so_far, _| so_far.word(0))
    };
    let answered = Words::new().word(0);
    let with_points = |answer: Result<Points, Refusal>, else_points: Option<&Points>| match (answer, else_points) {
        (Ok(points), _) => answered.points(&points),
        (Err(refusal), Some(points)) => Words::new().word(refusal).points(points),
        (Err(refusal), None) => refused(refusal),
    };
    let with_roots = |answer: Result<Roots, Refusal>| match answer {
        Ok(roots) => answered.word(roots.count).numbers(&roots.places),
        Err(refusal) => refused(refusal),
    };
    let with_number = |answer: Result<f32, Refusal>| match answer {
        Ok(x) => answered.numbers(&[x]),
        Err(refusal) => refused(refusal),
    };
    let (number, point, points) = (|name| call.number(name), |name| call.point(name), |name| call.points(name));
    match call.function {
        Function::SquareRoot => with_number(rules.square_root(number("x"))),
        Function::Lerp => match rules.lerp(point("p0"), point("p1"), number("ratio")) {
            Ok(place) => answered.numbers(&place),
            Err(refusal) => refused(refusal),
        },
        Function::AddScaled => with_points(rules.add_scaled(&points("x0"), &points("dx"), number("t")), None),
        Function::Centerize => with_points(rules.centerize(&points("x")), Some(&points("x"))),
        Function::ScaleInPlace => with_points(rules.scale_in_place(&points("x"), number("s")), Some(&points("x"))),
        Function::SquaredDistance => match rules.squared_distance(&points("x"), call.word("split")) {
            Ok(d) => answered.numbers(&[d.squared]).numbers(&d.direction).word(d.candidate),
            Err(refusal) => refused(refusal),
        },
        Function::MaxRelativeNorm => with_number(rules.max_relative_norm(&points("x"), call.word("split"))),
        Function::NormalizeCenterizedConfiguration => {
            match rules.normalize(&points("x"), &points("dx"), number("max_t")) {
                Ok(s) => answered.numbers(&[s.factor]).points(&s.x).points(&s.dx),
                Err(refusal) => Words::new().word(refusal).word(0).points(&points("x")).points(&points("dx")),
            }
        }
        Function::QuadraticRoot => with_roots(rules.quadratic_root(number("c0"), number("c1"), number("c2"))),
        Function::CubicRootsInRangeZeroToT => {
            let c = ["c0", "c1", "c2", "c3"].map(number);
            with_roots(rules.cubic_roots(c, number("t"), number("epsilon")))
        }
        Function::CoplanarTimeMat3x4 => with_roots(rules.coplanar(&points("x0"), &points("dx"))),
        Function::MaximumSafeTimeAccurate | Function::MaximumSafeTimeAllowing => {
            let (x0, dx, split) = (points("x0"), points("dx"), call.word("split"));
            match rules.safe_time(&x0, &dx, split, limits_of(call), allowance_of(call)) {
                Ok(safe) => answered.word(safe.kind as u32).numbers(&[safe.time]).word(safe.probes).word(safe.halvings),
                Err(refusal) => Words::new().word(refusal).word(REFUSED).word(0).word(0).word(0),
            }
        }
    }
}
