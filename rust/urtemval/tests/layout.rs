//! Prints the sizes and offsets of the records, the constants, the refusals' texts and the version, as this compiler
//! has them. `tests/link` holds the list to the one that the header's C gives and to the one of the Rattle sources.

use std::mem::{size_of, size_of_val};
use urtemval::{raw, Limits, Points, Refusal, Split, FULL_ALLOWANCE};

/// The size of a record, and of each field its offset and size.
macro_rules! record {
    ($name:literal, $value:expr, $($field:ident)*) => {
        let value = $value;
        let start = &value as *const _ as usize;
        println!("record {} size {}", $name, size_of_val(&value));
        $(
            println!(
                "field {}.{} at {} size {}",
                $name,
                stringify!($field),
                &value.$field as *const _ as usize - start,
                size_of_val(&value.$field)
            );
        )*
    };
}

fn main() {
    println!("record Points size {}", size_of::<Points>());
    record!("Limits", Limits { offset: 0.0, clearance: 0.0, max_t: 0.0, u_max: 0.0 },
        offset clearance max_t u_max);
    record!("SafeTime", raw::SafeTime { refusal: 0, kind: 0, time: 0.0, probes: 0, halvings: 0 },
        refusal kind time probes halvings);
    record!("Distance", raw::Distance { refusal: 0, squared: 0.0, direction: [0.0; 3], candidate: 0 },
        refusal squared direction candidate);
    record!("Roots", raw::Roots { refusal: 0, count: 0, roots: [0.0; 3] }, refusal count roots);
    record!("Value", raw::Value { refusal: 0, value: 0.0 }, refusal value);
    println!("kind TOUCHING {}", raw::TOUCHING);
    println!("kind CONTACT {}", raw::CONTACT);
    println!("kind CLEAR {}", raw::CLEAR);
    println!("kind BUDGET {}", raw::BUDGET);
    println!("kind REFUSED {}", raw::REFUSED);
    println!("allowance FULL_ALLOWANCE {FULL_ALLOWANCE}");
    println!("split EDGE_EDGE {}", Split::EdgeEdge as usize);
    println!("split FACE_VERTEX {}", Split::FaceVertex as usize);
    for refusal in Refusal::ALL {
        println!(
            "refusal {} {}",
            shouted(&format!("{refusal:?}")),
            refusal.number()
        );
    }
    for refusal in Refusal::ALL {
        println!("text {}: {}", refusal.number(), refusal.text());
    }
    println!("version {}", env!("CARGO_PKG_VERSION"));
    println!(
        "version {}.{}.{} by its numbers",
        env!("CARGO_PKG_VERSION_MAJOR"),
        env!("CARGO_PKG_VERSION_MINOR"),
        env!("CARGO_PKG_VERSION_PATCH")
    );
}

/// A name in C's way: `NotFinite` is `NOT_FINITE`.
fn shouted(name: &str) -> String {
    let mut text = String::new();
    for letter in name.chars() {
        if letter.is_uppercase() && !text.is_empty() {
            text.push('_');
        }
        text.push(letter.to_ascii_uppercase());
    }
    text
}
