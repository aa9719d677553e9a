//! Safe times with growing allowances: any answer but a budget stays, a budget has tried as many times as are allowed,
//! and the time never falls (docs/01-scope.md, "The allowance").

use urtemval::{safe_times_allowing, Answer, Query, Refusal, SafeTime};

type Told = Result<SafeTime, Refusal>;

/// Each above the one before it, and the last is the full one.
const ALLOWANCES: [u32; 9] = [1, 2, 3, 5, 16, 128, 1024, 4095, 4096];

/// Holds the answers of each allowance to those of the one before, and the last to the answers of the whole calls.
pub fn hold(queries: &[Query], whole: &[Told]) {
    let answers = ALLOWANCES.map(|allowance| safe_times_allowing(queries, allowance));
    for (&allowance, told) in ALLOWANCES.iter().zip(&answers) {
        told.iter()
            .flatten()
            .for_each(|safe| tried(safe, allowance));
    }
    let grown = |pair: &[Vec<Told>]| {
        let both = pair[0].iter().zip(&pair[1]);
        both.filter(|(fewer, more)| ends(fewer, more)).count()
    };
    let ended: usize = answers.windows(2).map(grown).sum();
    assert!(ended > 0, "no budget ended in another answer");
    assert_eq!(answers[ALLOWANCES.len() - 1], whole, "4,096 allowed");
    for allowance in [0, 4097, u32::MAX] {
        for (told, whole) in safe_times_allowing(queries, allowance).iter().zip(whole) {
            let expected = match whole {
                Err(Refusal::NotFinite) => Refusal::NotFinite,
                _ => Refusal::OutOfRange,
            };
            assert_eq!(*told, Err(expected), "{allowance} allowed");
        }
    }
}

/// Holds the count of a safe time to what was allowed.
fn tried(safe: &SafeTime, allowance: u32) {
    match safe.answer {
        Answer::Budget(_) => assert_eq!(safe.probes, allowance, "a budget"),
        _ => assert!(
            safe.probes <= allowance,
            "{safe:?} with {allowance} allowed"
        ),
    }
}

/// Holds an answer to the one with fewer allowed; says whether a budget ended in another answer.
fn ends(fewer: &Told, more: &Told) -> bool {
    match (fewer, more) {
        (Ok(before), Ok(now)) if matches!(before.answer, Answer::Budget(_)) => {
            assert!(before.time() <= now.time(), "{now:?} after {before:?}");
            !matches!(now.answer, Answer::Budget(_))
        }
        _ => {
            assert_eq!(fewer, more, "an answer that is no budget");
            false
        }
    }
}
