//! The inputs of docs/DIFFERENCES.md: for each entry the least that were found, each a function and its words.

use crate::judge::Entry;

pub const EXAMPLES: &[(Entry, &str)] = &[
    (Entry::NotFinite, "lerp 0 0 0 0 0 0 7fc00000"),
    (
        Entry::NotFinite,
        "maximum_safe_time_accurate 0 0 0 0 0 0 0 0 3f800000 0 0 3f800000 0 0 0 0 0 0 0 0 7fc00000 0 0 0 \
         2 0 0 3f800000 3f800000",
    ),
    (Entry::Limits, "lerp 0 0 0 3f800000 0 0 3f800001"),
    (
        Entry::Limits,
        "maximum_safe_time_accurate 0 0 0 0 0 0 0 0 3f800000 0 0 3f800000 0 0 0 0 0 0 0 0 0 0 0 0 \
         2 0 0 40000000 3f800000",
    ),
    (
        Entry::Limits,
        "maximum_safe_time_allowing 0 0 0 0 0 0 0 0 3f800000 0 0 3f800000 0 0 0 0 0 0 0 0 bf800000 0 0 bf800000 \
         2 0 0 3f800000 3f800000 0",
    ),
    (Entry::Limits, "cubic_roots_in_range_zero_to_t 0 0 0 0 0 0"),
    (Entry::Limits, "quadratic_root 5f800000 5f800000 5f800000"),
    (Entry::Limits, "coplanar_time_mat3x4 0 0 0 43000000 0 0 0 43000000 0 0 0 43000000 0 0 0 0 0 0 0 0 0 0 0 0"),
    (
        Entry::Band,
        "maximum_safe_time_accurate 0 0 0 0 0 0 0 0 3f800000 0 0 3f800000 0 0 0 0 0 0 0 0 0 0 0 0 \
         2 0 40000000 3f800000 3f800000",
    ),
    (
        Entry::Band,
        "maximum_safe_time_accurate 0 0 0 0 0 0 0 0 3f800000 0 0 3f800000 0 0 0 0 0 0 0 0 0 0 0 0 \
         2 0 3f800000 3f800000 3f800000",
    ),
    (Entry::BothZero, "cubic_roots_in_range_zero_to_t 0 34000000 0 0 1 0"),
    (Entry::BothZero, "cubic_roots_in_range_zero_to_t 0 0 0 3f800000 1 0"),
    (Entry::BothZero, "cubic_roots_in_range_zero_to_t bb213e3f 3d5ff2e6 becf5c2a 3f800000 3f800000 0"),
    (Entry::Guess, "cubic_roots_in_range_zero_to_t 0 3bc00000 3c000000 bf400000 3dc00000 0"),
    (Entry::NoSlope, "cubic_roots_in_range_zero_to_t 0 0 0 3f800000 3f800000 0"),
    (Entry::NoSlope, "cubic_roots_in_range_zero_to_t 0 0 bbb8c400 40000000 3b38c400 0"),
    (Entry::LinearRange, "cubic_roots_in_range_zero_to_t be800000 3f800000 0 0 3f000000 0"),
    (Entry::LinearRange, "cubic_roots_in_range_zero_to_t bf800000 40800000 0 0 3e800000 0"),
    (Entry::LeadingZero, "quadratic_root 0 0 0"),
    (Entry::Endless, "normalize_centerized_configuration 3dfd70a4 0 0 0 0 0 0 0 0 0 0 0 0 0 0 0 0 0 0 0 0 0 0 0 0"),
    (
        Entry::Infinity,
        "normalize_centerized_configuration 800000 0 0 0 0 0 0 0 0 0 0 0 41000000 0 0 0 0 0 0 0 0 0 0 0 0",
    ),
    (
        Entry::Infinity,
        "normalize_centerized_configuration 1fd70a4 0 0 0 0 0 0 0 0 0 0 0 42000000 0 0 0 0 0 0 0 0 0 0 0 0",
    ),
    (
        Entry::PlusZero,
        "maximum_safe_time_accurate 0 0 0 0 0 0 0 0 3f800000 0 0 3f800000 0 0 0 0 0 0 0 0 0 0 0 0 \
         2 0 0 80000000 3f800000",
    ),
    (Entry::PlusZero, "cubic_roots_in_range_zero_to_t 0 3f800000 0 0 3f800000 0"),
    (Entry::PlusZero, "square_root 80000000"),
    (Entry::NormUpward, "max_relative_norm 3f800000 0 0 0 0 0 0 0 0 0 0 0 2"),
    (Entry::NormUpward, "max_relative_norm 3f800000 3f800000 0 0 0 0 0 0 0 0 0 0 2"),
];
