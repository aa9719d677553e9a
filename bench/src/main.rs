//! The library beside the Rust original (docs/BENCHMARKS.md): the same calls to both in one process, by turns.
//!   bench                 a table: the median of the ratios of the rounds, the time of a call, the instructions of a call
//!   bench count LINE SIDE the calls of one line once, by `ours` or `rust`, for valgrind, which counts the instructions

mod distance;
mod inputs;

use std::hint::black_box;
use std::process::Command;
use std::rc::Rc;
use std::time::Instant;

use distance::{EdgeEdge, FaceVertex};
use inputs::{queries, End, Query, Source};
use original::ccd3::{self, SquareDistance};
use original::polynomial_root as polynomial;
use urtemval::{Refusal, Split};

const ROUNDS: usize = 41;
/// The least time of one side's part of a round, in seconds.
const LEAST: f64 = 0.004;

/// The calls of one line of the table, all of them at once.
struct Line {
    calls: usize,
    ours: Box<dyn Fn()>,
    rust: Box<dyn Fn()>,
}

/// A line over inputs for which both give the same answer.
fn line<T, A>(inputs: Vec<T>, ours: impl Fn(&T) -> A + 'static, rust: impl Fn(&T) -> A + 'static) -> Line
where
    T: 'static,
    A: PartialEq + std::fmt::Debug + 'static,
{
    line_where(inputs, ours, rust, |a, b| a == b)
}

/// A line over inputs for which the answers, ours first, agree in this way.
fn line_where<T, A>(
    inputs: Vec<T>,
    ours: impl Fn(&T) -> A + 'static,
    rust: impl Fn(&T) -> A + 'static,
    agree: fn(&A, &A) -> bool,
) -> Line
where
    T: 'static,
    A: std::fmt::Debug + 'static,
{
    for input in &inputs {
        let (a, b) = (ours(input), rust(input));
        assert!(agree(&a, &b), "the two sides differ: {a:?} and {b:?}");
    }
    let (calls, inputs) = (inputs.len(), Rc::new(inputs));
    let all = |inputs: Rc<Vec<T>>, side: Box<dyn Fn(&[T])>| Box::new(move || side(&inputs));
    Line {
        calls,
        ours: all(inputs.clone(), Box::new(move |of| of.iter().for_each(|x| drop(black_box(ours(black_box(x))))))),
        rust: all(inputs, Box::new(move |of| of.iter().for_each(|x| drop(black_box(rust(black_box(x))))))),
    }
}

fn safe_times<F: SquareDistance<f32> + 'static, const SPLIT: usize>(
    split: Split,
    end: End,
    count: usize,
    rule: F,
) -> Line {
    let ours = move |q: &Query| urtemval::safe_time(&q.x0, &q.dx, split, q.limits).map(|safe| safe.time().to_bits());
    let rust = move |q: &Query| {
        let l = q.limits;
        let time = ccd3::maximum_safe_time_accurate::<F, SPLIT>;
        Ok(time(&q.x0, &q.dx, l.u_max, &rule, l.offset, l.clearance, l.max_t).to_bits())
    };
    line(queries(split, end, count), ours, rust)
}

fn edges(end: End, count: usize) -> Line {
    safe_times::<_, 2>(Split::EdgeEdge, end, count, EdgeEdge)
}

fn face(end: End, count: usize) -> Line {
    safe_times::<_, 3>(Split::FaceVertex, end, count, FaceVertex)
}

/// Roots in bits, a zero of either sign as plus zero.
fn told(roots: &[f32]) -> (usize, [u32; 3]) {
    let mut places = [0; 3];
    places.iter_mut().zip(roots).for_each(|(place, x)| *place = (x + 0.0).to_bits());
    (roots.len(), places)
}

fn coplanar() -> Line {
    let mut source = Source::new();
    let pairs = (0..4000).map(|_| source.pair(Split::FaceVertex));
    let answered: Vec<_> = pairs.filter(|(x0, dx)| urtemval::coplanar_times(x0, dx).is_ok()).collect();
    line(
        answered,
        |(x0, dx)| urtemval::coplanar_times(x0, dx).map(|roots| told(&roots)),
        |(x0, dx)| Ok(told(&ccd3::coplanar_time_mat3x4(x0, dx))),
    )
}

const EPSILON: f32 = 1.0 / 1_048_576.0;

fn cubic() -> Line {
    let mut source = Source::new();
    let polynomials = (0..4000).map(|_| [0; 4].map(|_| source.between(-1.0, 1.0)));
    let answered: Vec<_> = polynomials.filter(|c| urtemval::cubic_roots(*c, 1.0, EPSILON).is_ok()).collect();
    line(
        answered,
        |c| urtemval::cubic_roots(*c, 1.0, EPSILON).map(|roots| told(&roots)),
        |c| Ok(told(&polynomial::cubic_roots_in_range_zero_to_t(c[0], c[1], c[2], c[3], 1.0, EPSILON))),
    )
}

fn quadratic() -> Line {
    let mut source = Source::new();
    let polynomials = (0..4000).map(|_| [0; 3].map(|_| source.between(-1.0, 1.0))).collect();
    line(
        polynomials,
        |c: &[f32; 3]| urtemval::quadratic_roots(*c).map(|roots| told(&roots)),
        |c| Ok(polynomial::quadratic_root(c[0], c[1], c[2]).map_or((0, [0; 3]), |roots| told(&roots))),
    )
}

fn norm() -> Line {
    let mut source = Source::new();
    let displacements = (0..4000).map(|_| source.pair(Split::EdgeEdge).1).collect();
    line_where(
        displacements,
        |dx| urtemval::max_relative_norm(dx, Split::EdgeEdge),
        |dx| Ok(ccd3::max_relative_norm::<f32, 2>(dx)),
        errs_upward,
    )
}

/// Whether our norm is not below the Rust's, nor above that times 1 + 2^-20.
fn errs_upward(ours: &Result<f32, Refusal>, rust: &Result<f32, Refusal>) -> bool {
    match (ours, rust) {
        (Ok(ours), Ok(rust)) => rust <= ours && f64::from(*ours) <= f64::from(*rust) * (1.0 + 1.0 / 1_048_576.0),
        _ => false,
    }
}

fn scaling() -> Line {
    let mut source = Source::new();
    let size = |source: &mut Source| 2f32.powi(source.between(-12.0, 12.0) as i32);
    let pairs = (0..4000).map(|_| {
        let (x, dx) = source.pair(Split::EdgeEdge);
        let size = size(&mut source);
        (x.map(|p| p.map(|c| c * size)), dx.map(|p| p.map(|c| c * size)))
    });
    line(
        pairs.collect(),
        |(x, dx)| {
            let (mut x, mut dx) = (*x, *dx);
            let factor = urtemval::scale_pair(&mut x, &mut dx, 1.0).ok();
            (factor, x, dx)
        },
        |(x, dx)| {
            let (mut x, mut dx) = (*x, *dx);
            let factor = ccd3::normalize_centerized_configuration(&mut x, &mut dx, 1.0);
            (factor, x, dx)
        },
    )
}

const LINES: [(&str, fn() -> Line); 11] = [
    ("edges, free", || edges(End::Free, 4000)),
    ("face, free", || face(End::Free, 4000)),
    ("edges, contact", || edges(End::Contact, 2000)),
    ("face, contact", || face(End::Contact, 2000)),
    ("edges, budget", || edges(End::Budget, 8)),
    ("face, budget", || face(End::Budget, 8)),
    ("coplanar times", coplanar),
    ("cubic roots", cubic),
    ("quadratic roots", quadratic),
    ("norm", norm),
    ("scaling", scaling),
];

fn seconds(side: &dyn Fn(), passes: usize) -> f64 {
    let began = Instant::now();
    (0..passes).for_each(|_| side());
    began.elapsed().as_secs_f64()
}

fn median(mut of: Vec<f64>) -> f64 {
    of.sort_by(f64::total_cmp);
    of[of.len() / 2]
}

/// The instructions of one call, by valgrind, where that is there.
fn instructions(index: usize, side: &str, calls: usize) -> Option<f64> {
    let program = std::env::current_exe().ok()?;
    let mut valgrind = Command::new("valgrind");
    valgrind.args(["--tool=callgrind", "--callgrind-out-file=/dev/null", "--toggle-collect=*counted*"]);
    let output = valgrind.arg(program).args(["count", &index.to_string(), side]).output().ok()?;
    let said = String::from_utf8_lossy(&output.stderr).into_owned();
    let collected = said.lines().find_map(|text| text.split("Collected : ").nth(1).map(str::to_string))?;
    Some(collected.trim().parse::<f64>().ok()? / calls as f64)
}

/// What valgrind counts.
#[inline(never)]
fn counted(side: &dyn Fn()) {
    side();
}

fn measure(index: usize) {
    let (name, make) = LINES[index];
    let line = make();
    let passes = (LEAST / seconds(&line.rust, 1)).ceil().max(1.0) as usize;
    let (mut ratios, mut ours, mut rust) = (Vec::new(), Vec::new(), Vec::new());
    for round in 0..ROUNDS {
        let first = if round % 2 == 0 { seconds(&line.ours, passes) } else { 0.0 };
        let of_rust = seconds(&line.rust, passes);
        let of_ours = if round % 2 == 0 { first } else { seconds(&line.ours, passes) };
        ratios.push(of_ours / of_rust);
        ours.push(of_ours);
        rust.push(of_rust);
    }
    let nanoseconds = |of: Vec<f64>| median(of) * 1e9 / (passes * line.calls) as f64;
    let counts = (instructions(index, "ours", line.calls), instructions(index, "rust", line.calls));
    let counted = match counts {
        (Some(ours), Some(rust)) => format!("{:>10.0} | {:>10.0} | {:>6.2}", ours, rust, ours / rust),
        _ => format!("{:>10} | {:>10} | {:>6}", "-", "-", "-"),
    };
    let (ratio, ours, rust) = (median(ratios), nanoseconds(ours), nanoseconds(rust));
    println!("| {name:<15} | {ratio:>5.2} | {ours:>9.0} | {rust:>9.0} | {counted} |");
}

fn main() {
    let args: Vec<String> = std::env::args().skip(1).collect();
    let words: Vec<&str> = args.iter().map(String::as_str).collect();
    match words[..] {
        [] => {
            println!("| line            | ratio | ours, ns  | Rust, ns  | ours, instr. | Rust, instr. | ratio |");
            println!("|---|---|---|---|---|---|---|");
            (0..LINES.len()).for_each(measure);
        }
        ["count", index, side] => {
            let line = LINES[index.parse::<usize>().expect("a line's number")].1();
            counted(if side == "ours" { &line.ours } else { &line.rust });
        }
        _ => eprintln!("bench, or bench count LINE ours|rust"),
    }
}
