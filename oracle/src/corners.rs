//! The corners of docs/01-scope.md ("Corners to check"): each a call and the answer that the document gives it, as
//! words in hex. Every comparison begins with them; the expected answers are held to the rules and to the original.

use crate::allowance_corners;
use crate::band_corners;
use crate::calls::Call;
use crate::judge::judged;
use crate::model::Rules;
use crate::norm_corners;
use crate::sides::by_model;
use crate::words::hex;

/// A corner: what it is, the call, the answer.
pub struct Corner {
    pub what: &'static str,
    pub call: &'static str,
    pub answer: &'static str,
}

/// Two strips one unit long, the upper one at height 4 and coming down by 4; offset 0, clearance 1.
macro_rules! strips {
    ($limits:literal) => {
        concat!(
            "maximum_safe_time_accurate 0 0 0 3f800000 0 0 0 0 40800000 3f800000 0 40800000 ",
            "0 0 0 0 0 0 0 0 c0800000 0 0 c0800000 2 0 3f800000 ",
            $limits
        )
    };
}

/// Two strips one unit long and 3·2^-22 apart, of which the upper one slides along by 1; clearance 2^-21.
const SLIDING: &str = "maximum_safe_time_accurate 0 0 0 3f800000 0 0 0 0 35400000 3f800000 0 35400000 \
    0 0 0 0 0 0 3f800000 0 0 3f800000 0 0 2 0 35000000 3f800000 3f800000";

/// The same with every length doubled.
const DOUBLED: &str = "maximum_safe_time_accurate 0 0 0 40000000 0 0 0 0 35c00000 40000000 0 35c00000 \
    0 0 0 0 0 0 40000000 0 0 40000000 0 0 2 0 35800000 3f800000 40000000";

/// An edge at rest and one that passes by it, with the columns of the first in either order.
macro_rules! passing {
    ($first:literal) => {
        concat!(
            "maximum_safe_time_accurate ",
            $first,
            " 0 3f800000 bf800000 3f800000 0 40000000 0 0 0 0 0 0 c0000000 bf800000 0 c0000000 bf800000 0 ",
            "2 0 3e800000 3f800000 400f1bbd"
        )
    };
}

const CORNERS: [Corner; 23] = [
    Corner { what: "the root of 0", call: "square_root 0", answer: "0 0" },
    Corner { what: "the root of 2.25", call: "square_root 40100000", answer: "0 3fc00000" },
    Corner { what: "the root of 2^-148", call: "square_root 2", answer: "0 1a800000" },
    Corner { what: "the root of 2", call: "square_root 40000000", answer: "0 3fb504f3" },
    Corner {
        what: "the quadratic (2, -3, 1)",
        call: "quadratic_root 40000000 c0400000 3f800000",
        answer: "0 2 3f800000 40000000 0",
    },
    Corner { what: "the quadratic (1, 0, 1)", call: "quadratic_root 3f800000 0 3f800000", answer: "0 0 0 0 0" },
    Corner { what: "the quadratic (0, 0, 1)", call: "quadratic_root 0 0 3f800000", answer: "0 2 0 0 0" },
    Corner { what: "the quadratic (1, 1, 0)", call: "quadratic_root 3f800000 3f800000 0", answer: "9 0 0 0 0" },
    Corner {
        what: "the cubic (-1, 2, 0, 0)",
        call: "cubic_roots_in_range_zero_to_t bf800000 40000000 0 0 3f800000 0",
        answer: "0 1 3f000000 0 0",
    },
    Corner {
        what: "the cubic (-0.25, 1, 0, 0) at t = 0.5",
        call: "cubic_roots_in_range_zero_to_t be800000 3f800000 0 0 3f000000 0",
        answer: "0 1 3e800000 0 0",
    },
    Corner {
        what: "the cubic (0.25, -1, 1, 0)",
        call: "cubic_roots_in_range_zero_to_t 3e800000 bf800000 3f800000 0 3f800000 0",
        answer: "0 2 3f000000 3f000000 0",
    },
    Corner {
        what: "the cubic (0, 0, 0, 1) with epsilon 2^-20",
        call: "cubic_roots_in_range_zero_to_t 0 0 0 3f800000 3f800000 35800000",
        answer: "0 3 0 0 0",
    },
    Corner {
        what: "the cubic (0, 0, 0, 1) with epsilon 0",
        call: "cubic_roots_in_range_zero_to_t 0 0 0 3f800000 3f800000 0",
        answer: "8 0 0 0 0",
    },
    Corner {
        what: "a pair of zeros has no factor",
        call: "normalize_centerized_configuration 0 0 0 0 0 0 0 0 0 0 0 0 0 0 0 0 0 0 0 0 0 0 0 0 3f800000",
        answer: "4 0 0 0 0 0 0 0 0 0 0 0 0 0 0 0 0 0 0 0 0 0 0 0 0 0",
    },
    Corner {
        what: "a pair whose largest entry is 0.99 has factor 1",
        call: "normalize_centerized_configuration 3f7d70a4 0 0 0 0 0 0 0 0 0 0 0 0 0 0 0 0 0 0 0 0 0 0 0 3f800000",
        answer: "0 3f800000 3f7d70a4 0 0 0 0 0 0 0 0 0 0 0 0 0 0 0 0 0 0 0 0 0 0 0",
    },
    Corner { what: "max_t 1", call: strips!("3f800000 40800000"), answer: "0 1 3f3fffff 1 19" },
    Corner { what: "max_t just above 1", call: strips!("3f800001 40800000"), answer: "2 4 0 0 0" },
    Corner { what: "u_max 2^-60", call: strips!("3f800000 21800000"), answer: "0 2 3f800000 0 0" },
    Corner { what: "u_max just below 2^-60", call: strips!("3f800000 217fffff"), answer: "2 4 0 0 0" },
    Corner { what: "a pair that slides", call: SLIDING, answer: "0 3 3b000000 1000 0" },
    Corner { what: "its double", call: DOUBLED, answer: "0 2 3f800000 0 0" },
    Corner { what: "passing by", call: passing!("bf800000 0 0 40000000 0 bf800000"), answer: "0 1 3ee575dd 2 16" },
    Corner { what: "the same turned", call: passing!("40000000 0 bf800000 bf800000 0 0"), answer: "0 1 3ee575db 2 16" },
];

/// All of them.
fn all() -> impl Iterator<Item = &'static Corner> {
    CORNERS.iter().chain(&norm_corners::CORNERS).chain(&allowance_corners::CORNERS).chain(&band_corners::CORNERS)
}

/// The calls, for a run to begin with.
pub fn calls() -> impl Iterator<Item = Call> {
    all().map(|corner| Call::from_text(corner.call))
}

/// Whether the pair that slides and its double differ by the slack of coordinates alone: every length is doubled, and
/// without the slack they have one answer.
fn slack_alone() -> bool {
    let (pair, double) = (Call::from_text(SLIDING), Call::from_text(DOUBLED));
    let twice_points = |name| double.points(name) == pair.points(name).map(|column| column.map(|n| 2.0 * n));
    let twice = |name| double.number(name) == 2.0 * pair.number(name);
    let same = |name| double.word(name) == pair.word(name);
    let lengths = ["x0", "dx"].iter().all(|name| twice_points(name))
        && ["offset", "clearance", "u_max"].iter().all(|name| twice(name));
    let without = Rules { coordinate_slack: 0.0, ..Rules::DOCUMENT };
    let answers = [pair, double].map(|call| by_model(&without, &call));
    let holds = lengths && same("split") && same("max_t") && answers[0].as_slice() == answers[1].as_slice();
    if !holds {
        println!("CORNER: the pair that slides and its double differ by more than the slack");
    }
    holds
}

/// Whether the rules give each corner the answer that is listed, and the original none that no entry explains.
pub fn hold() -> bool {
    let holds = |corner: &Corner| {
        let this = judged(Call::from_text(corner.call));
        let found = hex(this.expected.as_slice());
        let right = found == corner.answer && this.relation.explained();
        if !right {
            println!(
                "CORNER: {}: {} is listed, the rules give {found} ({:?})",
                corner.what, corner.answer, this.relation
            );
        }
        right
    };
    all().map(holds).fold(slack_alone(), |so_far, this| so_far && this)
}
