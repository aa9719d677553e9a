//! A solver's next call: where a contact or a budget leaves a pair, it is asked once more, with the same limits and the
//! opposite move. The pair is not within the offset there, so it is neither refused nor touching; and where it started
//! in the band it is no nearer than it started (docs/GUARANTEES.md).

use urtemval::{safe_times, squared_distance, Answer, Points, Query, Refusal, SafeTime};

/// The bound on coordinates.
const BOUND: f32 = 1_048_576.0;

/// Holds the next calls to what is promised of these; says how many there are.
pub fn hold(queries: &[Query], answers: &[Result<SafeTime, Refusal>]) -> usize {
    let left = queries.iter().zip(answers).filter_map(|(query, told)| {
        let safe = told.ok()?;
        let onward = Query {
            x0: moved(query, safe.time()),
            dx: query.dx.map(|column| column.map(|n| -n)),
            ..*query
        };
        let known = matches!(safe.answer, Answer::Contact(_) | Answer::Budget(_));
        (known && allowed(&onward.x0)).then(|| (query, onward))
    });
    let (before, onward): (Vec<&Query>, Vec<Query>) = left.unzip();
    for (next, told) in onward.iter().zip(safe_times(&onward)) {
        match told {
            Ok(safe) => assert_ne!(safe.answer, Answer::Touching, "{next:?}"),
            Err(refusal) => panic!("{refusal}: {next:?}"),
        }
    }
    let nearer = before.iter().zip(&onward);
    let in_band = nearer.filter(|(before, onward)| no_nearer(before, onward));
    assert!(in_band.count() > 0, "no start in the band");
    onward.len()
}

/// The points at a time: the product rounded, and then the sum.
fn moved(query: &Query, t: f32) -> Points {
    let mut x = query.x0;
    for (column, by) in x.iter_mut().zip(&query.dx) {
        for (n, by) in column.iter_mut().zip(by) {
            *n += t * by;
        }
    }
    x
}

fn allowed(x: &Points) -> bool {
    x.iter().flatten().all(|n| n.abs() <= BOUND)
}

/// Whether a pair started in the band; then it is held to its first distance.
fn no_nearer(before: &Query, onward: &Query) -> bool {
    let squared = |x| squared_distance(x, before.split).map(|found| found.squared);
    let (first, last) = (squared(&before.x0), squared(&onward.x0));
    let park = before.limits.offset + before.limits.clearance;
    match (first, last) {
        (Ok(first), Ok(last)) if first <= park * park => {
            assert!(first <= last, "{before:?}");
            true
        }
        _ => false,
    }
}
