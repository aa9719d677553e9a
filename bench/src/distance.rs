//! Our distance rules as plain Rust, for the original's trait: the candidates in their order, the first smallest taken
//! (docs/01-scope.md, "Our distance rules"). Written to be fast; the driver holds its answers to the library's.

use original::ccd3::SquareDistance;

type Point = [f32; 3];
type Points = [Point; 4];

/// Edge against edge.
pub struct EdgeEdge;
/// Face against vertex.
pub struct FaceVertex;

#[inline(always)]
fn minus(a: Point, b: Point) -> Point {
    [a[0] - b[0], a[1] - b[1], a[2] - b[2]]
}

#[inline(always)]
fn dot(a: Point, b: Point) -> f32 {
    a[0] * b[0] + a[1] * b[1] + a[2] * b[2]
}

#[inline(always)]
fn along(a: Point, t: f32, b: Point) -> Point {
    [a[0] + t * b[0], a[1] + t * b[1], a[2] + t * b[2]]
}

/// The place on the segment q0 q1 nearest to p.
#[inline(always)]
fn nearest(p: Point, q0: Point, q1: Point) -> Point {
    let d = minus(q1, q0);
    let length = dot(d, d);
    let ratio = if length == 0.0 { 0.0 } else { dot(minus(p, q0), d) / length };
    along(q0, ratio.clamp(0.0, 1.0), d)
}

/// The smaller of a candidate and the ones before it.
#[inline(always)]
fn take(best: &mut (f32, Point), direction: Point) {
    let squared = dot(direction, direction);
    if squared < best.0 {
        *best = (squared, direction);
    }
}

#[inline(always)]
fn first(direction: Point) -> (f32, Point) {
    (dot(direction, direction), direction)
}

#[inline(always)]
fn edge_edge(x: &Points) -> (f32, Point) {
    let mut best = first(minus(nearest(x[0], x[2], x[3]), x[0]));
    take(&mut best, minus(nearest(x[1], x[2], x[3]), x[1]));
    take(&mut best, minus(x[2], nearest(x[2], x[0], x[1])));
    take(&mut best, minus(x[3], nearest(x[3], x[0], x[1])));
    let (u, v, w) = (minus(x[1], x[0]), minus(x[3], x[2]), minus(x[0], x[2]));
    let (a, b, c, d, e) = (dot(u, u), dot(u, v), dot(v, v), dot(u, w), dot(v, w));
    let det = a * c - b * b;
    if det > 0.0 {
        let s = (b * e - c * d) / det;
        let r = (a * e - b * d) / det;
        if (0.0..=1.0).contains(&s) && (0.0..=1.0).contains(&r) {
            take(&mut best, minus(along(x[2], r, v), along(x[0], s, u)));
        }
    }
    best
}

#[inline(always)]
fn face_vertex(x: &Points) -> (f32, Point) {
    let mut best = first(minus(x[3], nearest(x[3], x[0], x[1])));
    take(&mut best, minus(x[3], nearest(x[3], x[1], x[2])));
    take(&mut best, minus(x[3], nearest(x[3], x[2], x[0])));
    let (g, h, k) = (minus(x[1], x[0]), minus(x[2], x[0]), minus(x[3], x[0]));
    let (a, b, c, d, e) = (dot(g, g), dot(g, h), dot(h, h), dot(g, k), dot(h, k));
    let det = a * c - b * b;
    if det > 0.0 {
        let v = (c * d - b * e) / det;
        let w = (a * e - b * d) / det;
        if v >= 0.0 && w >= 0.0 && v + w <= 1.0 {
            take(&mut best, minus(x[3], along(along(x[0], v, g), w, h)));
        }
    }
    best
}

impl SquareDistance<f32> for EdgeEdge {
    fn eval_with_dir(&self, x: &Points) -> (f32, Point) {
        edge_edge(x)
    }

    fn eval(&self, x: &Points) -> f32 {
        edge_edge(x).0
    }
}

impl SquareDistance<f32> for FaceVertex {
    fn eval_with_dir(&self, x: &Points) -> (f32, Point) {
        face_vertex(x)
    }

    fn eval(&self, x: &Points) -> f32 {
        face_vertex(x).0
    }
}
