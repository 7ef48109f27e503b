# Read by the scripts that run one of the proved programs (`. "$here/tools/program.sh"`), which set `name` to the
# program's name and `here` to this repository's folder. It gives them:
#   build       proves and builds the program, unless it is there and no source is newer
#   run         runs it on standard input, and leaves its status in `status`
#   give_up     says a sentence on standard error, and ends with a status
# The statuses: 0 all well; 1 the input breaks; 2 it could not be run; 3 a read failed; 4 a write failed.

give_up() {
    status=$1
    shift
    echo "$name: $*" >&2
    exit "$status"
}

# The kit proves and compiles on x86-64, and for it.
find_kit() {
    command -v rt >/dev/null ||
        give_up 2 "the Rattle kit is missing: put its bin/ on PATH, so that 'rt version' answers" \
            '(docs/DECISIONS.md says which kit)'
    [ "$(uname -m)" = x86_64 ] || give_up 2 "the kit has no tools for $(uname -m): it runs on x86-64 alone"
}

# Whether the program is there, and no source is newer.
is_built() {
    [ -x "$program" ] && [ -z "$(find "$here/crates" "$here/crates.txt" -name out -prune -o \
        -type f -newer "$program" -print | head -n 1)" ]
}

# 'rt run' proves and builds the program, says that it runs it, and runs it, here on no input.
build() {
    find_kit
    crate=$here/crates/$name
    program=$crate/out/$name
    is_built && return
    echo "$name: proving and building the program first, which takes some minutes; a line for each crate:" >&2
    log=$(mktemp)
    (cd "$crate" && rt run 2>&1 >/dev/null) </dev/null 2>&1 | tee "$log" |
        sed -n "s/^rt: chose .* for \([a-z0-9_]*\)\$/$name: proving \1/p" >&2
    if grep -q "^rt: running out/$name" "$log" && [ -x "$program" ]; then
        rm -f "$log"
        touch "$program"
        return
    fi
    tail -n 20 "$log" >&2
    give_up 2 "the program could not be built: above is the end of what 'rt run' said in crates/$name;" \
        "the whole is in $log"
}

# The program writes its status to descriptor 3, a pipe that the shell reads here; its standard output is ours (4). It
# ignores the signal for a reader that went away, so that it is a write that fails.
run() {
    (exec 4>&1) 2>/dev/null || give_up 4 "standard output is closed: give it a file or a pipe"
    ended=0
    {
        status=$(
            trap '' PIPE
            exec "$program" status=3 3>&1 >&4 4>&-
        ) || ended=$?
    } 4>&1
    case $status in
    [0-4]) ;;
    *)
        echo "$name: the program was ended before its time (status $ended): what it wrote is not complete;" \
            "run it again" >&2
        status=2
        ;;
    esac
}
