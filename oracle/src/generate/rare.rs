//! Inputs found once that meet branches which random ones hardly ever meet, each as the words of its arguments.

use crate::calls::Call;
use crate::functions::Function;
use crate::words::Words;

/// All of them as calls.
pub fn calls() -> impl Iterator<Item = Call> {
    let of = |function: Function| move |words: &&str| Call::new(function, Words::from_hex(words));
    let polynomials = POLYNOMIALS.iter().map(of(Function::CubicRootsInRangeZeroToT));
    let motions = MOTIONS.iter().map(of(Function::CoplanarTimeMat3x4));
    let safe_times = SAFE_TIMES.iter().map(of(Function::MaximumSafeTimeAccurate));
    let allowing = |words: &&'static str| {
        let words = Words::from_hex(words);
        ALLOWANCES.iter().map(move |&n| Call::new(Function::MaximumSafeTimeAllowing, words.word(n)))
    };
    polynomials.chain(motions).chain(safe_times).chain(SAFE_TIMES.iter().flat_map(allowing))
}

/// The numbers of probes with which each rare safe time is asked once more.
const ALLOWANCES: [u32; 7] = [0, 1, 2, 3, 4095, 4096, 4097];

/// c0, c1, c2, c3, t and epsilon.
pub const POLYNOMIALS: [&str; 5] = [
    // both values of a span are zero
    "bb213e3f 3d5ff2e6 becf5c2a 3f800000 3f800000 0",
    // a starting guess above t
    "3b8a0000 be800000 40000000 40000000 3dc00000 0",
    // value 0 and slope 0
    "0 0 bf800000 3f800000 3f800000 0",
    // linear, both values zero: by underflow, and by what is left of the higher coefficients
    "0 34000000 0 0 1 0",
    "0 b4000001 8078c677 89c8ca1a 1 3f800000",
];

/// Twelve coordinates and twelve displacements.
const MOTIONS: [&str; 1] = [
    // coplanar times whose cubic is zero at both ends of a span
    "0 ab65e559 8e6de3e0 38a 8002520c 5070 17561f 16dae3cc 0 4870d35 0 0 \
     4f2aa3c ac94770f a97d4e3c 80004330 0 c782bfe7 43a63091 140f4bc3 bd8354b0 800eec9f 13d216c5 abc99dab",
];

/// Twelve coordinates, twelve displacements, the split, offset, clearance, max_t and u_max.
pub const SAFE_TIMES: [&str; 16] = [
    // slow approach of edges: contact at the last probe; clear after it
    "0 0 0 35000000 0 0 0 b5000000 34b12c66 0 35000000 34b12c66 0 0 0 0 0 0 0 0 b5312c66 0 0 b5312c66 \
     2 0 3352c274 3f800000 3a8c8b93",
    "0 0 0 35000000 0 0 0 b5000000 34b12c66 0 35000000 34b12c66 0 0 0 0 0 0 0 0 b5312c66 0 0 b5312c66 \
     2 0 3352c274 3ecffe82 3aa8a77e",
    // the same of a face and a vertex
    "0 0 0 35000000 0 0 0 35000000 0 34000000 34000000 349103d4 0 0 0 0 0 0 0 0 0 0 0 b51103d4 \
     3 0 32dc1896 3f800000 3a416d3b",
    "0 0 0 35000000 0 0 0 35000000 0 34000000 34000000 349103d4 0 0 0 0 0 0 0 0 0 0 0 b51103d4 \
     3 0 32dc1896 3edfd64d 3a681cae",
    // contact at time 0
    "1 0 0 3f82a252 0 0 0 be23c398 3f356ed8 0 3f287d14 3c9da6c0 bf71eb46 0 0 bf71eb46 0 0 0 0 0 0 0 0 \
     2 0 3ee0b288 3f800000 3f71eb46",
    // 150 halvings
    "2 0 0 3ff26748 0 0 0 3f75f548 bea37490 0 3e5b7100 bf9cb688 bf3d7b64 0 0 bf3d7b64 0 0 0 0 0 0 0 0 \
     2 0 3f71bf99 3f800000 3f3d7b64",
    // passes through in exact arithmetic: edges nearly parallel, coarse coordinates, det that underflows
    "bf000000 0 0 3f000000 0 0 bf000000 b8800000 3f000000 3f000000 38800000 3f000000 \
     0 0 0 0 0 0 0 0 bf800000 0 0 bf800000 2 0 38000000 3f800000 3f800000",
    "49000000 49000000 49000000 49000080 49000000 49000000 49000000 49000080 49000000 49000020 49000020 49000002 \
     0 0 0 0 0 0 0 0 0 0 0 be800000 3 3d75c28f 3a83126f 3f800000 3e800000",
    "ab800000 0 0 2b800000 0 0 0 ab800000 2c000000 0 2b800000 2c000000 \
     0 0 0 0 0 0 0 0 ac800000 0 0 ac800000 2 0 2a800000 3f800000 2c800000",
    // exactly at dip where coordinates are coarse: contact; clear
    "49000000 49000001 0 49000001 49000002 0 48fffffe 49000003 0 48fffffe 49000003 0 \
     0 0 0 0 0 0 3e800000 be800000 0 3e800000 be800000 0 2 3d800000 3d5413cc 3f800000 3f000000",
    "49000000 49000001 0 49000001 49000002 0 48fffffe 49000003 0 48fffffe 49000003 0 \
     0 0 0 0 0 0 bd800000 3d800000 0 bd800000 3d800000 0 2 0 3e3504f3 3f800000 3e000000",
    // one f32 above offset squared, in the band: clear; budget
    "0 0 0 3f800000 0 0 0 0 3fc00000 3f800000 0 3fc00000 0 0 0 0 0 0 3f800000 0 0 3f800000 0 0 \
     2 3fbfffff 33c00000 35000000 3f800000",
    "0 0 0 3f800000 0 0 0 0 3fc00000 3f800000 0 3fc00000 0 0 0 0 0 0 3f800000 0 0 3f800000 0 0 \
     2 3fbfffff 33c00000 3f800000 3f800000",
    // one f32 above offset squared, with no band: contact; clear; budget
    "0 0 0 3f800000 0 0 0 0 3fc00000 3f800000 0 3fc00000 0 0 0 0 0 0 0 0 bf800000 0 0 bf800000 \
     2 3fbfffff 0 3f800000 3f800000",
    "0 0 0 3f800000 0 0 0 0 3fc00000 3f800000 0 3fc00000 0 0 0 0 0 0 3f800000 0 0 3f800000 0 0 \
     2 3fbfffff 0 35000000 3f800000",
    "0 0 0 3f800000 0 0 0 0 3fc00000 3f800000 0 3fc00000 0 0 0 0 0 0 3f800000 0 0 3f800000 0 0 \
     2 3fbfffff 0 3f800000 3f800000",
];
