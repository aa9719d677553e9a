//! Files that are made: damaged copies of a scene, and scenes of random pairs.

use super::scene::{Scene, MOST};
use crate::functions::Function;
use crate::generate::Source;

/// The file with a word changed.
fn with_word(file: &[u8], place: usize, word: u32) -> Vec<u8> {
    let mut changed = file.to_vec();
    changed[place..place + 4].copy_from_slice(&word.to_le_bytes());
    changed
}

/// Every cut; every byte changed, one bit and all bits; bytes added; each count, kind, corner and number wrong in turn.
pub fn damaged(file: &[u8]) -> Vec<Vec<u8>> {
    let mut copies: Vec<Vec<u8>> = (0..file.len()).map(|n| file[..n].to_vec()).collect();
    for place in 0..file.len() {
        for bits in [1 << (place % 8), 0xff] {
            let mut changed = file.to_vec();
            changed[place] ^= bits;
            copies.push(changed);
        }
    }
    for byte in [0, 1, 0xff] {
        copies.extend((1..=24).chain([1_000, 200_000]).map(|n| [file, &vec![byte; n]].concat()));
    }
    copies.push([file, file].concat());
    let scene = match Scene::read(file) {
        Some(scene) => scene,
        None => return copies,
    };
    let displacements = 4 + 12 * scene.points.len();
    let pairs = 2 * displacements;
    let limits = pairs + 4 + 20 * scene.pairs.len();
    for (place, count) in
        [(0, scene.points.len()), (displacements, scene.points.len()), (pairs, scene.pairs.len()), (limits, 1)]
    {
        let count = count as u32;
        // and counts whose bytes would be few in arithmetic of 32 bits
        let near = [count.wrapping_sub(1), count + 1, 1024, 1025, 1 << 16, 1 << 24];
        let wrap = [1 << 30, (1 << 30) + count, 0x1555_5556, 0x0ccc_cccd, 1 << 31, u32::MAX - 1023, u32::MAX];
        copies.extend(near.into_iter().chain(wrap).map(|wrong| with_word(file, place, wrong)));
    }
    for pair in 0..scene.pairs.len().min(8) {
        let place = pairs + 4 + 20 * pair;
        copies.extend([0, 1, 4, 0x0200_0000, u32::MAX].map(|kind| with_word(file, place, kind)));
        for corner in 1..=4 {
            let beyond = [scene.points.len() as u32, 1024, 1 << 24, u32::MAX];
            copies.extend(beyond.map(|wrong| with_word(file, place + 4 * corner, wrong)));
        }
    }
    let numbers = (4..displacements).chain(displacements + 4..pairs).chain(limits + 4..file.len()).step_by(4);
    for place in numbers.take(200) {
        let not_allowed = [0x7fc0_0000, 0xff80_0001, 0x7f80_0000, 0xff80_0000, 0x7f7f_ffff, 0x4980_0001, 0x8000_0000];
        copies.extend(not_allowed.map(|bits| with_word(file, place, bits)));
    }
    copies
}

/// A scene of random pairs, some of which share corners, with the limits of one of them.
pub fn random(source: &mut Source, count: usize) -> Scene {
    let mut scene = Scene { points: Vec::new(), displacements: Vec::new(), pairs: Vec::new(), limits: [0.0; 3] };
    let lead = source.below(count as u32) as usize;
    for number in 0..count {
        let call = source.call_of(Function::MaximumSafeTimeAccurate);
        let first = scene.points.len() as u32;
        let mut pair = [2 + (call.word("split") & 1), first, first + 1, first + 2, first + 3];
        if first as usize + 4 > MOST || (first > 0 && source.once_in(8)) {
            pair[1..].iter_mut().for_each(|corner| *corner = source.below(first));
        } else {
            scene.points.extend(call.points("x0"));
            scene.displacements.extend(call.points("dx"));
        }
        scene.pairs.push(pair);
        if number == lead {
            scene.limits = ["offset", "clearance", "max_t"].map(|name| call.number(name));
        }
    }
    scene
}
