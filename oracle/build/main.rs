//! What is made before the oracle is compiled: the original's functions, and the functions of the stream of calls.

mod functions;
mod original;

use std::env;
use std::path::PathBuf;

fn main() {
    println!("cargo:rerun-if-changed=build");
    let out = PathBuf::from(env::var_os("OUT_DIR").expect("cargo gives OUT_DIR"));
    original::cut(&out);
    functions::make(&out);
}
