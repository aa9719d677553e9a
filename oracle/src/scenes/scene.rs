//! A scene file, and the listing that is expected of it, by the rules and the original.

use crate::calls::Call;
use crate::functions::Function;
use crate::judge::{judged, Judged};
use crate::model::Point;
use crate::refusals::refusal_of;
use crate::sides::KINDS;
use crate::words::Words;

/// The most points, and the most pairs, of a scene.
pub const MOST: usize = 1024;
/// A scene whose layout is right.
pub struct Scene {
    pub points: Vec<Point>,
    pub displacements: Vec<Point>,
    pub pairs: Vec<[u32; 5]>,
    pub limits: [f32; 3],
}

/// One section: its count, and as many rows of `WIDTH` words.
fn section<const WIDTH: usize>(bytes: &mut &[u8], count_is_right: impl Fn(usize) -> bool) -> Option<Vec<[u32; WIDTH]>> {
    let mut word = || -> Option<u32> {
        let word = bytes.get(..4)?.try_into().ok()?;
        *bytes = &bytes[4..];
        Some(u32::from_le_bytes(word))
    };
    let count = word()? as usize;
    if !count_is_right(count) {
        return None;
    }
    let mut row = || -> Option<[u32; WIDTH]> {
        let mut words = [0; WIDTH];
        for place in &mut words {
            *place = word()?;
        }
        Some(words)
    };
    (0..count).map(|_| row()).collect()
}

impl Scene {
    pub fn read(mut bytes: &[u8]) -> Option<Scene> {
        let numbers = |words: [u32; 3]| words.map(f32::from_bits);
        let points: Vec<Point> = section(&mut bytes, |n| n <= MOST)?.into_iter().map(numbers).collect();
        let displacements = section(&mut bytes, |n| n == points.len())?.into_iter().map(numbers).collect();
        let pairs = section(&mut bytes, |n| n <= MOST)?;
        let limits = numbers(section(&mut bytes, |n| n == 1)?[0]);
        bytes.is_empty().then_some(Scene { points, displacements, pairs, limits })
    }

    pub fn bytes(&self) -> Vec<u8> {
        let places = |of: &[Point]| -> Vec<u32> {
            let numbers = of.iter().flatten().map(|x| x.to_bits());
            std::iter::once(of.len() as u32).chain(numbers).collect()
        };
        let pairs = std::iter::once(self.pairs.len() as u32).chain(self.pairs.iter().flatten().copied());
        let words = places(&self.points).into_iter().chain(places(&self.displacements)).chain(pairs);
        words.chain(places(&[self.limits])).flat_map(u32::to_le_bytes).collect()
    }

    fn well_named(&self, pair: &[u32; 5]) -> bool {
        (2..=3).contains(&pair[0]) && pair[1..].iter().all(|&corner| (corner as usize) < self.points.len())
    }

    /// The safe time that a pair asks. Its u_max is the norm, for the original too; where that refuses, the numbers of
    /// the pair will.
    fn safe_time(&self, pair: &[u32; 5]) -> Judged {
        let gathered = |of: &[Point]| [1, 2, 3, 4].map(|i| of[pair[i] as usize]);
        let (x0, dx) = (gathered(&self.points), gathered(&self.displacements));
        let norm = listed(Call::new(Function::MaxRelativeNorm, Words::new().points(&dx).word(pair[0])));
        let u_max = match refusal_of(&norm.expected) {
            0 => f32::from_bits(norm.word("norm")),
            _ => 1.0,
        };
        let words = Words::new().points(&x0).points(&dx).word(pair[0]).numbers(&self.limits).numbers(&[u_max]);
        listed(Call::new(Function::MaximumSafeTimeAccurate, words))
    }
}

/// The call judged: the rules' answer is the original's, or an entry says why it is not.
fn listed(call: Call) -> Judged {
    let asked = judged(call);
    assert!(asked.relation.explained(), "the rule and the original differ: {}", asked.call.hex());
    asked
}

/// The expected listing of a file.
pub fn listing(file: &[u8]) -> String {
    let scene = match Scene::read(file) {
        Some(scene) => scene,
        None => return "scene refused 10\n".to_string(),
    };
    if !scene.pairs.iter().all(|pair| scene.well_named(pair)) {
        return "scene refused 11\n".to_string();
    }
    let mut text = format!("pairs {}\n", scene.pairs.len());
    for (number, pair) in scene.pairs.iter().enumerate() {
        let asked = scene.safe_time(pair);
        text += &match (refusal_of(&asked.expected), asked.expected.as_slice()) {
            (0, &[_, kind, time, probes, halvings]) => {
                format!("{number} {} {time:08x} {probes} {halvings}\n", KINDS[kind as usize])
            }
            (refusal, _) => format!("{number} refused {refusal}\n"),
        };
    }
    text
}
