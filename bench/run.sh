#!/bin/sh
# run.sh [TABLE..]: times the proved queue beside Rust's VecDeque and prints the tables of docs/SPEED.md, or of them
# those named (calls, copies, refusals). Takes some minutes; leave the machine alone meanwhile.
set -eu
cd "$(dirname "$0")/.."
command -v cargo >/dev/null || { echo "bench/run.sh: there is no cargo: put Rust's bin folder on PATH" >&2; exit 2; }
sh tools/native.sh . exports >&2
sh tools/native.sh . measured >&2
SCOREBUCKET_ARCHIVE=$PWD/target/native/libexports_native.a
MEASURED_ARCHIVE=$PWD/target/native/libmeasured_native.a
export SCOREBUCKET_ARCHIVE MEASURED_ARCHIVE
cd bench
# the calls into the archives are direct, as the calls of std's functions are: the linker may take the table of
# addresses out of their way
RUSTC_BOOTSTRAP=1
RUSTFLAGS=-Zrelax-elf-relocations=yes
# the program's own loops, around the calls of both sides, begin at a 64-byte line: where one lay across two lines, by
# the compiler's chance, `get` took a sixth longer
[ "$(uname -m)" != x86_64 ] ||
    RUSTFLAGS="$RUSTFLAGS -Cllvm-args=-x86-experimental-pref-innermost-loop-alignment=6"
export RUSTC_BOOTSTRAP RUSTFLAGS
CARGO_TARGET_DIR=../target/bench cargo run --release --offline --quiet -- "$@"
