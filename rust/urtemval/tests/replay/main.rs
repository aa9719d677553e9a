//! Replays the calls of the frozen list (docs/TESTING.md, "The stream") through the safe functions, and holds each
//! answer to the one in the list, word by word. Fails where one differs, and where a function is not called at all.
//! Safe times are asked once more, all at once, by `safe_times`, and with growing allowances; and where a contact or a
//! budget leaves a pair, its next call is made.
//!
//! A split that is neither 2 nor 3 cannot be said in this crate's types: such a call goes through `raw`, as every safe
//! time does beside the safe function.

mod growing;
mod onward;
mod stream;
mod told;

use std::collections::BTreeMap;
use stream::Call;
use urtemval::{raw, Limits, Query, Split};

fn split(call: &Call) -> Option<Split> {
    match call.word("split") {
        2 => Some(Split::EdgeEdge),
        3 => Some(Split::FaceVertex),
        _ => None,
    }
}

fn query(call: &Call, split: Split) -> Query {
    Query {
        x0: call.points("x0"),
        dx: call.points("dx"),
        split,
        limits: limits(call),
    }
}

fn limits(call: &Call) -> Limits {
    Limits {
        offset: call.number("offset"),
        clearance: call.number("clearance"),
        max_t: call.number("max_t"),
        u_max: call.number("u_max"),
    }
}

fn squared_distance(call: &Call) -> Vec<u32> {
    let x = call.points("x");
    match split(call) {
        Some(split) => told::distance(urtemval::squared_distance(&x, split)),
        None => {
            // SAFETY: a reference and a number.
            let r = unsafe { raw::urtemval_squared_distance(&x, call.word("split") as usize) };
            let d = r.direction.map(f32::to_bits);
            let squared = r.squared.to_bits();
            vec![r.refusal, squared, d[0], d[1], d[2], r.candidate]
        }
    }
}

fn max_relative_norm(call: &Call) -> Vec<u32> {
    let x = call.points("x");
    match split(call) {
        Some(split) => told::value(urtemval::max_relative_norm(&x, split)),
        None => {
            // SAFETY: a reference and a number.
            let r = unsafe { raw::urtemval_max_relative_norm(&x, call.word("split") as usize) };
            vec![r.refusal, r.value.to_bits()]
        }
    }
}

fn scale_pair(call: &Call) -> Vec<u32> {
    let (mut x, mut dx) = (call.points("x"), call.points("dx"));
    let factor = urtemval::scale_pair(&mut x, &mut dx, call.number("max_t"));
    let mut words = told::value(factor);
    words.extend(x.iter().chain(&dx).flatten().map(|n| n.to_bits()));
    words
}

fn safe_time(call: &Call) -> Vec<u32> {
    let (x0, dx, width) = (call.points("x0"), call.points("dx"), call.word("split"));
    // SAFETY: references and numbers.
    let raw = unsafe { raw::urtemval_safe_time(&x0, &dx, width as usize, limits(call)) };
    let words = told::raw_safe_time(raw);
    if let Some(split) = split(call) {
        assert_eq!(told::safe_time(query(call, split).safe_time()), words);
    }
    words
}

fn safe_time_allowing(call: &Call) -> Vec<u32> {
    let (x0, dx, width) = (call.points("x0"), call.points("dx"), call.word("split"));
    let (limits, n) = (limits(call), call.word("allowance"));
    // SAFETY: references and numbers.
    let raw = unsafe { raw::urtemval_safe_time_allowing(&x0, &dx, width as usize, limits, n) };
    let words = told::raw_safe_time(raw);
    if let Some(split) = split(call) {
        let safe = urtemval::safe_time(&x0, &dx, split, limits.allowing(n));
        assert_eq!(told::safe_time(safe), words);
    }
    words
}

fn answer(face: &str, call: &Call) -> Vec<u32> {
    let n = |name| call.number(name);
    match face {
        "square_root" => told::value(urtemval::square_root(n("x"))),
        "squared_distance" => squared_distance(call),
        "max_relative_norm" => max_relative_norm(call),
        "scale_pair" => scale_pair(call),
        "quadratic_roots" => told::roots(urtemval::quadratic_roots(["c0", "c1", "c2"].map(n))),
        "cubic_roots" => {
            let c = ["c0", "c1", "c2", "c3"].map(n);
            told::roots(urtemval::cubic_roots(c, n("t"), n("epsilon")))
        }
        "coplanar_times" => {
            let (x0, dx) = (call.points("x0"), call.points("dx"));
            told::roots(urtemval::coplanar_times(&x0, &dx))
        }
        "safe_time" => safe_time(call),
        "safe_time_allowing" => safe_time_allowing(call),
        _ => panic!("{face} is exported, and is not called here"),
    }
}

/// Safe times once more, all at once, with growing allowances, and on from where they end; says how many, and how many
/// go on.
fn at_once(calls: &[Call]) -> (usize, usize) {
    let safe_times = calls
        .iter()
        .filter(|call| call.function.face == Some("safe_time"));
    let asked = safe_times.filter_map(|call| Some((query(call, split(call)?), call.expected)));
    let (queries, expected): (Vec<Query>, Vec<&[u32]>) = asked.unzip();
    let answers = urtemval::safe_times(&queries);
    for (&got, expected) in answers.iter().zip(expected) {
        assert_eq!(told::safe_time(got), expected, "safe_times");
    }
    growing::hold(&queries, &answers);
    assert_eq!(urtemval::safe_times(&[]), []);
    (queries.len(), onward::hold(&queries, &answers))
}

fn main() {
    let (stream, answers) = (stream::list("stdin"), stream::list("stdout"));
    let table = stream::table();
    let calls = stream::calls(&table, &stream, &answers);
    let mut counts: BTreeMap<&str, usize> = BTreeMap::new();
    for call in &calls {
        if let Some(face) = call.function.face {
            let count = counts.entry(face).or_default();
            assert_eq!(answer(face, call), call.expected, "call {count} of {face}");
            *count += 1;
        }
    }
    let told = table
        .iter()
        .filter_map(|function| function.face)
        .map(|face| {
            let count = counts.get(face);
            let count = count.unwrap_or_else(|| panic!("{face} is not called"));
            format!("{face} {count}")
        });
    let (once_more, onward) = at_once(&calls);
    println!(
        "{}; {} calls, and {once_more} safe times at once and by allowances, all answered as in the frozen list; \
         {onward} next calls neither refused nor touching",
        told.collect::<Vec<_>>().join(", "),
        counts.values().sum::<usize>(),
    );
}
