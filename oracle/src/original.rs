//! The original: functions of del-geo-core in scope, compiled from its own text as it stands (`build/original.rs` cuts
//! them out; no line of them is in this project). What is written here is only what that text needs from elsewhere.
#![allow(dead_code, unused_imports, unstable_name_collisions, clippy::all)]

/// What an older Debian lacks and later versions have: its num-traits `Float::clamp`, its Rust `f32::next_down`. Where
/// they are there they are taken, since a bound's own method and a type's own go before these.
mod supplied {
    pub trait Clamp: num_traits::Float {
        fn clamp(self, low: Self, high: Self) -> Self {
            num_traits::clamp(self, low, high)
        }
    }
    impl<T: num_traits::Float> Clamp for T {}

    pub trait NextDown {
        fn next_down(self) -> Self;
    }
    impl NextDown for f32 {
        fn next_down(self) -> f32 {
            let bits = self.to_bits();
            if self.is_nan() || self == f32::NEG_INFINITY {
                self
            } else if self == 0.0 {
                f32::from_bits(0x8000_0001)
            } else {
                f32::from_bits(if self > 0.0 { bits - 1 } else { bits + 1 })
            }
        }
    }
}

/// What only functions out of scope call.
mod mat4_col_major {
    pub fn transform_homogeneous<T>(_: &[T; 16], _: &[T; 3]) -> Option<([T; 3], T)> {
        unreachable!("out of scope")
    }
}

pub mod vec3 {
    include!(concat!(env!("OUT_DIR"), "/vec3.rs"));
}

pub mod edge3 {
    include!(concat!(env!("OUT_DIR"), "/edge3.rs"));
}

pub mod mat3x4_array_of_cols {
    include!(concat!(env!("OUT_DIR"), "/mat3x4_array_of_cols.rs"));
}

pub mod polynomial_root {
    use crate::supplied::Clamp;
    include!(concat!(env!("OUT_DIR"), "/polynomial_root.rs"));
}

pub mod ccd3 {
    include!(concat!(env!("OUT_DIR"), "/ccd3.rs"));

    /// The safe time with its constant, the number of probes allowed, set by the caller.
    pub mod allowing {
        use super::{directional_advance, SquareDistance};
        include!(concat!(env!("OUT_DIR"), "/allowing.rs"));
    }

    /// The hinted text: the same with the original's hint in force, by which the threshold is below the first squared
    /// distance.
    pub mod hinted {
        use super::{directional_advance, SquareDistance};
        use crate::supplied::NextDown;
        include!(concat!(env!("OUT_DIR"), "/hinted.rs"));
    }
}
