//! How far may a corner fall towards a face? `cargo run --example safe_time`
use urtemval::{max_relative_norm, safe_time, Answer, Limits, Refusal, Split, LEAST_U_MAX};

fn main() -> Result<(), Refusal> {
    // a face on the floor, and a corner one unit above it that falls by two
    let x0 = [
        [0.0, 0.0, 0.0],
        [1.0, 0.0, 0.0],
        [0.0, 1.0, 0.0],
        [0.25, 0.25, 1.0],
    ];
    let dx = [[0.0; 3], [0.0; 3], [0.0; 3], [0.0, 0.0, -2.0]];

    let limits = Limits {
        offset: 0.125,
        clearance: 0.125,
        max_t: 1.0,
        u_max: max_relative_norm(&dx, Split::FaceVertex)?.max(LEAST_U_MAX),
    };
    let safe = safe_time(&x0, &dx, Split::FaceVertex, limits)?;
    let kind = match safe.answer {
        Answer::Touching => "touching",
        Answer::Contact(_) => "contact",
        Answer::Clear(_) => "clear",
        Answer::Budget(_) => "budget",
    };
    println!(
        "{kind} at {} after {} probes and {} halvings",
        safe.time(),
        safe.probes,
        safe.halvings
    );
    Ok(())
}
