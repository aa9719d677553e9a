//! The corners of the allowance (docs/01-scope.md, "The allowance").

use crate::corners::Corner;

/// Two strips one unit long, the upper one at height 4 and coming down by 4; offset 0, max_t 1, u_max 4. With a
/// clearance of 1 the first probe finds the contact; with one of 5 they start in the band.
macro_rules! meeting {
    ($clearance:literal, $rest:literal) => {
        concat!(
            "maximum_safe_time_allowing 0 0 0 3f800000 0 0 0 0 40800000 3f800000 0 40800000 ",
            "0 0 0 0 0 0 0 0 c0800000 0 0 c0800000 2 0 ",
            $clearance,
            " ",
            $rest
        )
    };
}

/// The pair that slides: each step is 2^-21, and no probe meets anything.
macro_rules! sliding {
    ($allowance:literal) => {
        concat!(
            "maximum_safe_time_allowing 0 0 0 3f800000 0 0 0 0 35400000 3f800000 0 35400000 ",
            "0 0 0 0 0 0 3f800000 0 0 3f800000 0 0 2 0 35000000 3f800000 3f800000 ",
            $allowance
        )
    };
}

/// Two edges at a right angle that come together slowly: the last of 4,096 probes finds the contact.
macro_rules! slow {
    ($allowance:literal) => {
        concat!(
            "maximum_safe_time_allowing 0 0 0 35000000 0 0 0 b5000000 34b12c66 0 35000000 34b12c66 ",
            "0 0 0 0 0 0 0 0 b5312c66 0 0 b5312c66 2 0 3352c274 3f800000 3a8c8b93 ",
            $allowance
        )
    };
}

pub const CORNERS: [Corner; 12] = [
    Corner { what: "sliding, 1 probe allowed", call: sliding!("1"), answer: "0 3 35000000 1 0" },
    Corner { what: "sliding, 2 probes allowed", call: sliding!("2"), answer: "0 3 35800000 2 0" },
    Corner { what: "sliding, 3 probes allowed", call: sliding!("3"), answer: "0 3 35c00000 3 0" },
    Corner { what: "sliding, 4,095 probes allowed", call: sliding!("fff"), answer: "0 3 3afff000 fff 0" },
    Corner { what: "sliding, 4,096 probes allowed", call: sliding!("1000"), answer: "0 3 3b000000 1000 0" },
    Corner { what: "slow, 4,095 probes allowed", call: slow!("fff"), answer: "0 3 3ed9ed55 fff 0" },
    Corner { what: "slow, 4,096 probes allowed", call: slow!("1000"), answer: "0 1 3ed9ef12 1000 b" },
    Corner {
        what: "a contact with 1 probe allowed",
        call: meeting!("3f800000", "3f800000 40800000 1"),
        answer: "0 1 3f3fffff 1 19",
    },
    Corner { what: "no probe allowed", call: meeting!("3f800000", "3f800000 40800000 0"), answer: "2 4 0 0 0" },
    Corner { what: "4,097 probes allowed", call: meeting!("3f800000", "3f800000 40800000 1001"), answer: "2 4 0 0 0" },
    Corner { what: "no probe and a NaN", call: meeting!("3f800000", "7fc00000 40800000 0"), answer: "1 4 0 0 0" },
    Corner { what: "no probe, in the band", call: meeting!("40a00000", "3f800000 40800000 0"), answer: "2 4 0 0 0" },
];
