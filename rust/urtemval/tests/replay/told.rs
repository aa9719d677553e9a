//! The answers of the safe functions as words of the stream.

use urtemval::{raw, Distance, Refusal, Roots, SafeTime};

/// One number, or a refusal.
pub fn value(answer: Result<f32, Refusal>) -> Vec<u32> {
    match answer {
        Ok(x) => vec![0, x.to_bits()],
        Err(refusal) => vec![refusal.number(), 0],
    }
}

pub fn roots(answer: Result<Roots, Refusal>) -> Vec<u32> {
    let mut words = vec![0; 5];
    match answer {
        Ok(roots) => {
            words[1] = roots.len() as u32;
            for (place, root) in words[2..].iter_mut().zip(roots.iter()) {
                *place = root.to_bits();
            }
        }
        Err(refusal) => words[0] = refusal.number(),
    }
    words
}

pub fn distance(answer: Result<Distance, Refusal>) -> Vec<u32> {
    match answer {
        Ok(found) => {
            let d = found.direction.map(f32::to_bits);
            vec![
                0,
                found.squared.to_bits(),
                d[0],
                d[1],
                d[2],
                found.candidate,
            ]
        }
        Err(refusal) => vec![refusal.number(), 0, 0, 0, 0, 0],
    }
}

/// A safe time as the archive tells it.
pub fn raw_safe_time(told: raw::SafeTime) -> Vec<u32> {
    let time = told.time.to_bits();
    vec![told.refusal, told.kind, time, told.probes, told.halvings]
}

pub fn safe_time(answer: Result<SafeTime, Refusal>) -> Vec<u32> {
    use urtemval::Answer::*;
    match answer {
        Ok(safe) => {
            let kind = match safe.answer {
                Touching => raw::TOUCHING,
                Contact(_) => raw::CONTACT,
                Clear(_) => raw::CLEAR,
                Budget(_) => raw::BUDGET,
            };
            vec![0, kind, safe.time().to_bits(), safe.probes, safe.halvings]
        }
        Err(refusal) => vec![refusal.number(), raw::REFUSED, 0, 0, 0],
    }
}
