//! Cuts the functions in scope out of the original's text, unedited, into files that `src/original.rs` includes; and
//! the safe time twice more: with the number of probes allowed in place of its constant, and so with its hint put in
//! force (the hinted text). The original's folder is the environment variable URTEMVAL_RUST, or else where the project
//! keeps it beside itself.

use std::path::{Path, PathBuf};
use std::{env, fs};

/// Each file of the original with the first words of the items that are taken from it. An item is what stands from a
/// line that begins so to the first line that is a closing brace alone; one that ends in a semicolon is its one line.
const ITEMS: [(&str, &[&str]); 5] = [
    (
        "vec3",
        &[
            "pub trait Vec3<",
            "impl<Real> Vec3<Real> for [Real; 3]",
            "pub fn orthogonalize<",
            "pub fn add<",
            "pub fn add_in_place<",
            "pub fn squared_norm<",
            "pub fn norm<",
            "pub fn normalize_in_place<",
            "pub fn normalize<",
            "pub fn cross_mut<",
            "pub fn cross<",
            "pub fn dot<",
            "pub fn sub<",
            "pub fn sub_in_place<",
            "pub fn scale<",
            "pub fn scale_in_place<",
            "pub fn scalar_triple_product<",
            "pub fn element_wise_mult<",
            "pub fn mult_mat3_array_of_array<",
            "pub fn mult_mat3_col_major<",
        ],
    ),
    ("edge3", &["pub fn lerp<"]),
    ("mat3x4_array_of_cols", &["pub fn centerize<", "pub fn scale_in_place<", "pub fn add_scaled<"]),
    ("polynomial_root", &["pub fn quadratic_root<", "pub fn cubic_roots_in_range_zero_to_t<"]),
    (
        "ccd3",
        &[
            "use num_traits::",
            "pub fn max_relative_norm<",
            "pub fn normalize_centerized_configuration<",
            "pub fn coplanar_time_mat3x4<",
            "pub trait SquareDistance<",
            "fn directional_advance<",
            "pub fn maximum_safe_time_accurate<",
        ],
    ),
];

/// The safe time, and what is put in place of what in it: the number of probes allowed is an argument.
const SAFE_TIME: &str = "pub fn maximum_safe_time_accurate<";
const ALLOWING: [(&str, &str); 2] = [
    ("    max_t: f32,\n) -> f32\n", "    max_t: f32,\n    allowance: usize,\n) -> f32\n"),
    ("    const MAX_PROBES: usize = 4096;\n", "    #[allow(non_snake_case)]\n    let MAX_PROBES = allowance;\n"),
];

/// The hint of the safe time, which its text has as a comment: the threshold is below the first squared distance.
const HINT: (&str, &str) = (
    "    let park_squared = park * park; //.min(sqdist.next_down());\n",
    "    let park_squared = (park * park).min(sqdist.next_down());\n",
);

pub fn cut(out: &Path) {
    println!("cargo:rerun-if-env-changed=URTEMVAL_RUST");
    let folder = match env::var_os("URTEMVAL_RUST") {
        Some(given) => PathBuf::from(given),
        None => Path::new("..").join("..").join("shared").join("docs").join("src"),
    };
    for (name, items) in ITEMS {
        let file = folder.join("del-geo-core").join("src").join(format!("{name}.rs"));
        println!("cargo:rerun-if-changed={}", file.display());
        let text = fs::read_to_string(&file).unwrap_or_else(|e| panic!("{}: {e}", file.display()));
        let cut: Vec<String> = items.iter().map(|start| item(&text, start, name)).collect();
        fs::write(out.join(format!("{name}.rs")), cut.join("\n")).expect("OUT_DIR can be written");
        if items.contains(&SAFE_TIME) {
            let allowing = ALLOWING.iter().fold(item(&text, SAFE_TIME, name), replaced);
            fs::write(out.join("allowing.rs"), &allowing).expect("OUT_DIR can be written");
            fs::write(out.join("hinted.rs"), replaced(allowing, &HINT)).expect("OUT_DIR can be written");
        }
    }
}

/// The text with the one place of `old` replaced.
fn replaced(text: String, (old, new): &(&str, &str)) -> String {
    assert_eq!(text.matches(old).count(), 1, "the original's safe time has `{old}` once");
    text.replace(old, new)
}

/// The one item of `text` that begins with `start`, as it stands there.
fn item(text: &str, start: &str, name: &str) -> String {
    let lines: Vec<&str> = text.lines().collect();
    let places: Vec<usize> = (0..lines.len()).filter(|&i| lines[i].starts_with(start)).collect();
    let first = match places[..] {
        [first] => first,
        _ => panic!("{name}: {} items begin with `{start}`, not one", places.len()),
    };
    let length =
        if lines[first].ends_with(';') { Some(0) } else { lines[first..].iter().position(|line| *line == "}") };
    let last = first + length.unwrap_or_else(|| panic!("{name}: `{start}` has no end"));
    lines[first..=last].join("\n") + "\n"
}
