#!/bin/sh
# Makes the archive of the exported calls, where a source has changed, and runs the tests over it, c/test.c and
# c/moves.c: as C11 and as C++11, by gcc and by clang, as far as they are there, and with their sanitizers of addresses
# and of undefined behaviour. Every warning is an error. The last line is 'ok'.
# With SCOREBUCKET_ARCHIVE set, that archive is taken as it is. With CC or CXX set, these alone are tried, without
# sanitizers: the C or the C++ compiler and its words. RUN: what runs the program, if it is not for this machine.
# For Arm on x86-64, with Debian's gcc-aarch64-linux-gnu and qemu-user:
#   TARGET=aarch64 CC='aarch64-linux-gnu-gcc -static' RUN=qemu-aarch64 sh c/test.sh
# Status: 0 all held; 1 a test failed, or a compiler refused them; 2 something is missing.
set -eu
cd "$(dirname "$0")/.."
if [ -z "${SCOREBUCKET_ARCHIVE:-}" ]; then
    folder=target/native${TARGET:+/$TARGET}
    sh tools/native.sh . exports "$folder"
    SCOREBUCKET_ARCHIVE=$folder/libexports_native.a
fi
[ -f "$SCOREBUCKET_ARCHIVE" ] || { echo "c/test.sh: there is no archive $SCOREBUCKET_ARCHIVE" >&2; exit 2; }

tried=0
# Compiles the tests by these words, and runs them.
try() { # COMPILER LANGUAGE WORDS..
    compiler=$1 language=$2
    shift 2
    # the compiler may be several words
    $compiler -x "$language" "$@" -Wall -Wextra -pedantic -Werror -Iinclude c/test.c c/moves.c \
        -x none "$SCOREBUCKET_ARCHIVE" -o target/c-test ||
        { echo "c/test.sh: $compiler $* refused the tests" >&2; exit 1; }
    ${RUN:-} target/c-test >target/c-test.said || {
        cat target/c-test.said
        echo "c/test.sh: a test failed, compiled by $compiler $*" >&2
        exit 1
    }
    echo "c/test.sh: held by $compiler $*"
    tried=$((tried + 1))
}

# Tries a compiler that is there, with its sanitizers and without.
try_both() { # COMPILER LANGUAGE STANDARD
    command -v "$1" >/dev/null || return 0
    try "$1" "$2" "$3" -O2
    checks='-fsanitize=address,undefined'
    if echo 'int main(void) { return 0; }' | "$1" -x "$2" - $checks -o target/c-test 2>/dev/null; then
        try "$1" "$2" "$3" -g $checks -fno-sanitize-recover=all
    else
        echo "c/test.sh: $1 has no sanitizers here" >&2
    fi
}

mkdir -p target
if [ -n "${CC:-}${CXX:-}" ]; then
    [ -z "${CC:-}" ] || try "$CC" c -std=c11 -O2
    [ -z "${CXX:-}" ] || try "$CXX" c++ -std=c++11 -O2
else
    for c in gcc clang; do try_both $c c -std=c11; done
    for c in g++ clang++; do try_both $c c++ -std=c++11; done
    [ $tried -gt 0 ] || { echo "c/test.sh: neither gcc nor clang is there: set CC or CXX" >&2; exit 2; }
fi
echo ok
