//! Why a call is refused.

use std::error::Error;
use std::fmt;

/// Why a call is refused. Each has the number that the rules (docs/01-scope.md, "Refusal numbers") give it.
///
/// The lowest number that applies is answered, except that 6, 7 and 8 come as a root finder meets them. 3 is retired:
/// no call answers it, and it will not stand for anything else.
#[derive(Clone, Copy, Debug, PartialEq, Eq, Hash, PartialOrd, Ord)]
#[repr(u32)]
pub enum Refusal {
    /// Some number handed over is NaN or an infinity.
    NotFinite = 1,
    /// Some number lies beyond its range, or, of coplanar times, a coefficient of the volume's cubic does.
    OutOfRange = 2,
    /// Of scaling: no finite factor above 0 brings the largest entry to 0.99.
    NoFactor = 4,
    /// Of scaling: some scaled number would not be finite.
    ScaledNotFinite = 5,
    /// Of roots: the polynomial is zero at both ends of a span.
    FlatSpan = 6,
    /// Of roots: the first guess lies outside 0..t.
    GuessOutside = 7,
    /// Of roots: a Newton step meets value 0 and slope 0.
    Stuck = 8,
    /// Of a quadratic: c2 is zero.
    NotQuadratic = 9,
}

impl Refusal {
    /// All of them, in the order of their numbers.
    pub const ALL: [Refusal; 8] = [
        Refusal::NotFinite,
        Refusal::OutOfRange,
        Refusal::NoFactor,
        Refusal::ScaledNotFinite,
        Refusal::FlatSpan,
        Refusal::GuessOutside,
        Refusal::Stuck,
        Refusal::NotQuadratic,
    ];

    /// The number of the refusal, from 1 to 9.
    pub fn number(self) -> u32 {
        self as u32
    }

    /// The refusal with this number.
    pub fn from_number(number: u32) -> Option<Refusal> {
        Refusal::ALL.into_iter().find(|r| r.number() == number)
    }

    /// The refusal in words: those of `urtemval_refusal_text` in the header.
    pub fn text(self) -> &'static str {
        match self {
            Refusal::NotFinite => "a number handed over is NaN or infinite",
            Refusal::OutOfRange => {
                "a number lies beyond its range, or the split is neither 2 nor 3"
            }
            Refusal::NoFactor => "scaling: there is no finite factor above 0",
            Refusal::ScaledNotFinite => "scaling: a scaled number would not be finite",
            Refusal::FlatSpan => "roots: the polynomial is zero at both ends of a span",
            Refusal::GuessOutside => "roots: the first guess lies outside the range",
            Refusal::Stuck => "roots: a Newton step meets value 0 and slope 0",
            Refusal::NotQuadratic => "quadratic: the leading coefficient is zero",
        }
    }
}

impl fmt::Display for Refusal {
    fn fmt(&self, f: &mut fmt::Formatter<'_>) -> fmt::Result {
        write!(f, "refusal {}: {}", self.number(), self.text())
    }
}

impl Error for Refusal {}

/// What a call answers, by the refusal number of its record: 0 is none.
#[inline]
pub(crate) fn unless_refused<T>(number: u32, answer: T) -> Result<T, Refusal> {
    if number == 0 {
        Ok(answer)
    } else {
        Err(known(number))
    }
}

/// The refusal of an answer of the archive.
#[cold]
fn known(number: u32) -> Refusal {
    Refusal::from_number(number).unwrap_or_else(|| unknown("refusal", number))
}

/// What the archive answers and this crate does not know: they are of different versions.
#[cold]
pub(crate) fn unknown(what: &str, number: u32) -> ! {
    panic!("liburtemval.a answers {what} {number}, which this crate does not know: it is of another version")
}
