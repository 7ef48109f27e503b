#!/bin/sh
# Makes the archive of the exported calls, where a source has changed, and runs the crate's tests over it, beside any
# words for `cargo test`. With SCOREBUCKET_ARCHIVE set, that archive is taken as it is.
set -eu
case ${SCOREBUCKET_ARCHIVE:-} in '' | /*) ;; *) SCOREBUCKET_ARCHIVE=$PWD/$SCOREBUCKET_ARCHIVE ;; esac
cd "$(dirname "$0")/.."
command -v cargo >/dev/null || { echo "rust/test.sh: there is no cargo: put Rust's bin folder on PATH" >&2; exit 2; }
if [ -z "${SCOREBUCKET_ARCHIVE:-}" ]; then
    sh tools/native.sh . exports
    SCOREBUCKET_ARCHIVE=$PWD/target/native/libexports_native.a
fi
export SCOREBUCKET_ARCHIVE
CARGO_TARGET_DIR=$PWD/target/rust
export CARGO_TARGET_DIR
# the layout and the lints, of the benchmark too; nothing is linked for them, so any path does for its own archive
for crate in rust bench; do (
    cd $crate
    if cargo fmt --version >/dev/null 2>&1; then cargo fmt --check; fi
    if cargo clippy --version >/dev/null 2>&1; then
        MEASURED_ARCHIVE=$SCOREBUCKET_ARCHIVE cargo clippy --offline --quiet --all-targets -- -D warnings
    fi
); done
cd rust
RUSTDOCFLAGS='-D warnings' cargo doc --offline --quiet --no-deps
cargo test --offline "$@"
