//! The corners of the norm (docs/01-scope.md, "Square root and norm"), and the extremes that a search has found.

use crate::corners::Corner;

/// A pair whose first side is one place, and the second another.
macro_rules! two_places {
    ($first:literal, $second:literal, edges) => {
        concat!("max_relative_norm ", $first, " ", $first, " ", $second, " ", $second, " 2")
    };
    ($first:literal, $second:literal, face) => {
        concat!("max_relative_norm ", $first, " ", $first, " ", $first, " ", $second, " 3")
    };
}

pub const CORNERS: [Corner; 15] = [
    Corner { what: "the norm zero", call: "max_relative_norm 0 0 0 0 0 0 0 0 0 0 0 0 2", answer: "0 0" },
    Corner {
        what: "the source norm just below 2^-60",
        call: "max_relative_norm 217fffff 0 0 0 0 0 0 0 0 0 0 0 2",
        answer: "0 217fffff",
    },
    Corner {
        what: "the source norm 2^-60",
        call: "max_relative_norm 21800000 0 0 0 0 0 0 0 0 0 0 0 2",
        answer: "0 21800004",
    },
    Corner {
        what: "the source norm just above 2^-60",
        call: "max_relative_norm 21800001 0 0 0 0 0 0 0 0 0 0 0 3",
        answer: "0 21800005",
    },
    Corner {
        what: "the norm of a difference of 1",
        call: "max_relative_norm 3f800000 0 0 0 0 0 0 0 0 0 0 0 2",
        answer: "0 3f800004",
    },
    Corner {
        what: "the norm of (3, 4, 0)",
        call: "max_relative_norm 40400000 40800000 0 0 0 0 0 0 0 0 0 0 3",
        answer: "0 40a00005",
    },
    Corner {
        what: "the norm of (1, 1, 0)",
        call: "max_relative_norm 3f800000 3f800000 0 0 0 0 0 0 0 0 0 0 2",
        answer: "0 3fb504f9",
    },
    Corner {
        what: "the norm just below a power of two",
        call: "max_relative_norm 3f7fffff 0 0 0 0 0 0 0 0 0 0 0 2",
        answer: "0 3f800003",
    },
    Corner {
        what: "the largest norm",
        call: "max_relative_norm 49800000 49800000 49800000 49800000 49800000 49800000 \
               c9800000 c9800000 c9800000 c9800000 c9800000 c9800000 2",
        answer: "0 4a5db3de",
    },
    // the extremes: about 2^-60, where squares underflow, and about 1
    Corner {
        what: "the norm nearest to the exact distance, 1 + 3.942·2^-24 times it",
        call: two_places!("1fdf1ed0 20f7043f 11800000", "a16597cb 9ea40ea0 9dd027fc", edges),
        answer: "0 218fea79",
    },
    Corner {
        what: "the norm farthest from the exact distance, 1 + 12.056·2^-24 times it",
        call: two_places!("1dbeb840 218041e5 1fa3c151", "a1009849 1cb2e9ff 137fffff", face),
        answer: "0 219003f9",
    },
    Corner {
        what: "the nearest about 1, 1 + 3.949·2^-24 times it",
        call: two_places!("3d303bf0 3b7f6480 3b882ee3", "bf75cfea 3f032209 b857dac0", face),
        answer: "0 3f8ff56c",
    },
    Corner {
        what: "the farthest about 1, 1 + 12.050·2^-24 times it",
        call: two_places!("3eea1994 3d9c140a 3b2de913", "bd3a0178 3ea814e4 3ca0de45", edges),
        answer: "0 3f100405",
    },
    Corner {
        what: "a source norm of 1 - 3.509·2^-24 times the exact distance",
        call: two_places!("117f72e6 219903cc 1e62bbdf", "9d85a14d 20474a1c 91f46e93", edges),
        answer: "0 21801df3",
    },
    Corner {
        what: "a source norm of 1 + 3.513·2^-24 times the exact distance",
        call: two_places!("1e6327e2 2180080f 1fc570fb", "11fffffe 17e7ffff 1fcbbeec", face),
        answer: "0 21800b54",
    },
];
