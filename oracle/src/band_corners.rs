//! The corners of the band and of what lies beside it (docs/01-scope.md, "The walk").

use crate::corners::Corner;

/// Two strips one unit long, the upper one at a height and moving as a whole.
macro_rules! strips {
    ($function:literal, $height:literal, $by:literal, $($limits:literal),+) => {
        concat!(
            $function, " 0 0 0 3f800000 0 0 0 0 ", $height, " 3f800000 0 ", $height,
            " 0 0 0 0 0 0 ", $by, " ", $by, " 2", $(" ", $limits),+
        )
    };
}

/// The same at height 2, coming down by 1; offset 1.
macro_rules! down {
    ($clearance:literal) => {
        strips!("maximum_safe_time_accurate", "40000000", "0 0 bf800000", "3f800000", $clearance, "3f800000 3f800000")
    };
}

/// The same, going up by 1.
macro_rules! up {
    ($clearance:literal) => {
        strips!("maximum_safe_time_accurate", "40000000", "0 0 3f800000", "3f800000", $clearance, "3f800000 3f800000")
    };
}

/// An edge from (0, 1) to (1, 2) and an edge of no length at (-1, 3), in sixteenths from 2^19 on, where coordinates are
/// so coarse. The place of the first edge that is nearest comes out as (0, 2), and the distance as the root of 2
/// sixteenths, where it is 1.5 times that; max_t 1.
macro_rules! coarse {
    ($function:literal, $by:literal, $limits:literal) => {
        concat!(
            $function,
            " 49000000 49000001 0 49000001 49000002 0 48fffffe 49000003 0 48fffffe 49000003 0 0 0 0 0 0 0 ",
            $by,
            " ",
            $by,
            " 2 ",
            $limits
        )
    };
}

pub const CORNERS: [Corner; 14] = [
    Corner { what: "above dip, coming down", call: down!("3fc00000"), answer: "0 1 33800000 1 2e" },
    Corner { what: "above dip, going up", call: up!("3fc00000"), answer: "0 2 3f800000 0 0" },
    Corner {
        what: "above dip by less than the slack, sliding",
        call: strips!("maximum_safe_time_accurate", "35400000", "3f800000 0 0", "0 35800000 3f800000 3f800000"),
        answer: "0 3 3a800000 1000 0",
    },
    Corner { what: "exactly at park squared, coming down", call: down!("3f800000"), answer: "0 1 33800000 1 2f" },
    Corner { what: "exactly at park squared, going up", call: up!("3f800000"), answer: "0 2 3f800000 0 0" },
    Corner { what: "just above park squared, coming down", call: down!("3f7ffffe"), answer: "0 1 33800000 1 2f" },
    Corner { what: "exactly at dip, going up", call: up!("40000000"), answer: "0 3 0 1000 0" },
    Corner { what: "below dip, going up", call: up!("40800000"), answer: "0 3 0 1000 0" },
    Corner {
        what: "below dip, 1 probe allowed",
        call: strips!(
            "maximum_safe_time_allowing",
            "40000000",
            "0 0 bf800000",
            "3f800000 40800000 3f800000 3f800000 1"
        ),
        answer: "0 3 0 1 0",
    },
    Corner {
        what: "one f32 above offset squared, coming down",
        call: strips!("maximum_safe_time_accurate", "3fc00000", "0 0 bf800000", "3fbfffff 33c00000 3f800000 3f800000"),
        answer: "0 1 33800000 1 19",
    },
    Corner {
        what: "exactly at offset squared",
        call: strips!("maximum_safe_time_accurate", "40000000", "0 0 bf800000", "40000000 3f800000 3f800000 3f800000"),
        answer: "0 0 0 0 0",
    },
    Corner {
        what: "below dip, coarse, going away",
        call: coarse!("maximum_safe_time_accurate", "bd800000 3d800000 0", "0 3e400000 3f800000 3e000000"),
        answer: "0 2 3f800000 0 0",
    },
    Corner {
        what: "below dip, coarse, coming nearer",
        call: coarse!("maximum_safe_time_accurate", "3e800000 be800000 0", "3d800000 3d800000 3f800000 3f000000"),
        answer: "0 1 3dffffff 5 17",
    },
    Corner {
        what: "the same, 1 probe allowed",
        call: coarse!("maximum_safe_time_allowing", "3e800000 be800000 0", "3d800000 3d800000 3f800000 3f000000 1"),
        answer: "0 3 3cafac10 1 0",
    },
];
