#!/bin/sh
# build.sh RUST: makes src/ here from the given text of vec_deque 1.97.0 under RUST and from shim/, so that it builds as
# a crate of its own on the installed rustc. The given files are only read. Whole-line stability and rustc attributes
# go, the inline '#[unstable(..)] ' before a generic parameter goes, and one line, 'pub mod inspect;', is appended to
# mod.rs. Nothing else of the text changes.
set -eu
here=$(cd "$(dirname "$0")" && pwd)
given=$1/library/alloc/src/collections/vec_deque
gen=$here/src
rm -rf "$gen"
mkdir -p "$gen/collections/vec_deque"
cp "$here"/shim/lib.rs "$here"/shim/raw_vec.rs "$gen/"
for m in macros extract_if iter iter_mut into_iter spec_extend spec_from_iter inspect; do
    cp "$here/shim/$m.rs" "$gen/collections/vec_deque/$m.rs"
done
for f in mod drain splice; do
    sed -E \
        -e '/^ *#!?\[(stable|unstable|rustc_[a-z_]+)(\(.*\))?\]$/d' \
        -e '/^ *#\[cfg_attr\(not\(test\), rustc_[a-z_]+ = "[^"]*"\)\]$/d' \
        -e 's/#\[unstable\([^)]*\)\] //' "$given/$f.rs" >"$gen/collections/vec_deque/$f.rs"
done
printf '\npub mod inspect;\n' >>"$gen/collections/vec_deque/mod.rs"
