#!/bin/sh
# build.sh RUST: builds `compare` in release form. RUST is a folder with Rust 1.97.0's
# library/alloc/src/collections/vec_deque (mod.rs, drain.rs, splice.rs); it is only read, and nothing of it is kept in
# the repository.
set -eu
[ $# -eq 1 ] || {
    echo "usage: build.sh RUST (a folder that holds library/alloc/src/collections/vec_deque of Rust 1.97.0)" >&2
    exit 2
}
rust=$(cd "$1" && pwd)
cd "$(dirname "$0")"
sh vd197/build.sh "$rust"
cargo build --release --offline
