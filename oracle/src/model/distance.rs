//! The two distance rules (docs/01-scope.md, "Our distance rules").

use super::{admission::Admission, Point, Points, Refusal, Rules};
use crate::cover::{met, Branch};

/// The first smallest candidate: the squared distance, the direction from the first side to the second, its number.
#[derive(Clone, Copy)]
pub struct Distance {
    pub squared: f32,
    pub direction: Point,
    pub candidate: u32,
}

pub fn minus(a: Point, b: Point) -> Point {
    [a[0] - b[0], a[1] - b[1], a[2] - b[2]]
}

pub fn dot(a: Point, b: Point) -> f32 {
    a[0] * b[0] + a[1] * b[1] + a[2] * b[2]
}

fn along(a: Point, t: f32, b: Point) -> Point {
    [a[0] + t * b[0], a[1] + t * b[1], a[2] + t * b[2]]
}

pub fn lerp(p0: Point, p1: Point, ratio: f32) -> Point {
    along(p0, ratio, minus(p1, p0))
}

/// The place on the segment q0 q1 that is nearest to p.
fn nearest(p: Point, q0: Point, q1: Point) -> Point {
    let d = minus(q1, q0);
    let length = dot(d, d);
    let ratio = if length == 0.0 {
        met(Branch::RatioNoLength);
        0.0
    } else {
        dot(minus(p, q0), d) / length
    };
    if ratio < 0.0 {
        met(Branch::RatioLow);
        lerp(q0, q1, 0.0)
    } else if 1.0 < ratio {
        met(Branch::RatioHigh);
        lerp(q0, q1, 1.0)
    } else {
        met(Branch::RatioInside);
        lerp(q0, q1, ratio)
    }
}

/// The interior places of two edges, where there are any: the direction between them.
fn between_edges(x: &Points) -> Option<Point> {
    let (u, v, w) = (minus(x[1], x[0]), minus(x[3], x[2]), minus(x[0], x[2]));
    let (a, b, c, d, e) = (dot(u, u), dot(u, v), dot(v, v), dot(u, w), dot(v, w));
    let det = a * c - b * b;
    if det <= 0.0 {
        met(Branch::EdgeNoDet);
        return None;
    }
    let s = (b * e - c * d) / det;
    let r = (a * e - b * d) / det;
    if !(0.0..=1.0).contains(&s) {
        met(Branch::EdgeSOutside);
        return None;
    }
    if !(0.0..=1.0).contains(&r) {
        met(Branch::EdgeROutside);
        return None;
    }
    Some(minus(lerp(x[2], x[3], r), lerp(x[0], x[1], s)))
}

/// The interior place of a face, where there is one: the direction from it to the vertex.
fn above_face(x: &Points) -> Option<Point> {
    let (g, h, k) = (minus(x[1], x[0]), minus(x[2], x[0]), minus(x[3], x[0]));
    let (a, b, c, d, e) = (dot(g, g), dot(g, h), dot(h, h), dot(g, k), dot(h, k));
    let det = a * c - b * b;
    if det <= 0.0 {
        met(Branch::FaceNoDet);
        return None;
    }
    let v = (c * d - b * e) / det;
    let w = (a * e - b * d) / det;
    if v < 0.0 {
        met(Branch::FaceVBelow);
        return None;
    }
    if w < 0.0 {
        met(Branch::FaceWBelow);
        return None;
    }
    if v + w > 1.0 {
        met(Branch::FaceSumAbove);
        return None;
    }
    Some(minus(x[3], along(along(x[0], v, g), w, h)))
}

impl Rules {
    /// The distance by the candidates in their order.
    pub fn distance(&self, x: &Points, split: u32) -> Distance {
        if split == 2 {
            let candidates = [
                Some(minus(nearest(x[0], x[2], x[3]), x[0])),
                Some(minus(nearest(x[1], x[2], x[3]), x[1])),
                Some(minus(x[2], nearest(x[2], x[0], x[1]))),
                Some(minus(x[3], nearest(x[3], x[0], x[1]))),
                between_edges(x),
            ];
            self.smallest(candidates, self.left_out[0])
        } else {
            let candidates = [
                Some(minus(x[3], nearest(x[3], x[0], x[1]))),
                Some(minus(x[3], nearest(x[3], x[1], x[2]))),
                Some(minus(x[3], nearest(x[3], x[2], x[0]))),
                above_face(x),
            ];
            self.smallest(candidates, self.left_out[1])
        }
    }

    fn smallest<const N: usize>(&self, candidates: [Option<Point>; N], left_out: Option<usize>) -> Distance {
        let mut best: Option<Distance> = None;
        for (i, candidate) in candidates.into_iter().enumerate() {
            let direction = match candidate {
                Some(direction) if left_out != Some(i) => direction,
                _ => continue,
            };
            let this = Distance { squared: dot(direction, direction), direction, candidate: i as u32 };
            best = match best {
                None => Some(this),
                Some(so_far) if this.squared < so_far.squared => Some(this),
                Some(so_far) if this.squared == so_far.squared => {
                    met(Branch::DistanceTie);
                    Some(if self.last_of_equals { this } else { so_far })
                }
                Some(so_far) => Some(so_far),
            };
        }
        best.expect("the first candidates are always there")
    }

    /// The public distance.
    pub fn squared_distance(&self, x: &Points, split: u32) -> Result<Distance, Refusal> {
        use Branch::*;
        Admission::new().points(x).split(split).done()?;
        let found = self.distance(x, split);
        let names = if split == 2 {
            [Edge0, Edge1, Edge2, Edge3, EdgeInterior]
        } else {
            [Face0, Face1, Face2, FaceInterior, FaceInterior]
        };
        met(names[found.candidate as usize]);
        Ok(found)
    }

    /// The public `lerp`.
    pub fn lerp(&self, p0: Point, p1: Point, ratio: f32) -> Result<Point, Refusal> {
        Admission::new().sized(&p0).sized(&p1).time(ratio).done()?;
        Ok(lerp(p0, p1, ratio))
    }
}
