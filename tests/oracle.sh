# Read by what compares with the Rust original. It changes to the project's folder, installs what is missing (Debian's
# packages, as root) and builds oracle/; then `$oracle` is that program, and `build FOLDER` builds another. The original
# is looked for in the folder that URTEMVAL_RUST names, or else beside the project. Where it is not at hand, the test says
# so and ends with status 77.
test=$(basename "$(dirname "$0")")/$(basename "$0")
cd "$(dirname "$0")/.."

export URTEMVAL_RUST=${URTEMVAL_RUST:-../shared/docs/src}
if [ ! -f "$URTEMVAL_RUST/del-geo-core/src/ccd3.rs" ]; then
    echo "$test: the Rust original is not at hand (URTEMVAL_RUST names its folder): nothing was compared"
    exit 77
fi
URTEMVAL_RUST=$(cd "$URTEMVAL_RUST" && pwd)

missing=
command -v cargo >/dev/null || missing="cargo rustc"
dpkg -s librust-num-traits-dev >/dev/null 2>&1 || missing="$missing librust-num-traits-dev"
if [ -n "$missing" ]; then
    echo "$test: installs $missing"
    # shellcheck disable=SC2086
    { apt-get -o Acquire::Retries=3 update && apt-get -o Acquire::Retries=3 install -y $missing; } >/dev/null
fi

# the package's folder of crates stands in for the registry
registry=$(dirname "$(dirname "$(dpkg -L librust-num-traits-dev | grep '/num-traits-[^/]*/Cargo.toml$')")")

# build FOLDER: the crate in the folder, in release, into target/FOLDER
build() {
    cargo build --quiet --release --offline --manifest-path "$1/Cargo.toml" --target-dir "target/$1" \
        --config "source.crates-io.replace-with='debian'" --config "source.debian.directory='$registry'"
}
build oracle
oracle=target/oracle/release/oracle
