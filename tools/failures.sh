#!/bin/sh
# sh tools/failures.sh: makes each failure of the programs happen, and asks for the status, for what is said on standard
# error and for the lines on standard output. A line a case; the last line is 'N passed, M failed'. Run by hand.
# Late, interrupted and failing calls need a C compiler (cc); what can't be tried here is named as left out.
set -u
here=$(cd "$(dirname "$0")/.." && pwd -P)
. "$here/tools/program.sh"
for name in trial replay_many replay; do build; done
work=$(mktemp -d)
trap 'rm -rf "$work"' EXIT
passed=0
failed=0

# Holds what a case left in $status, $work/out and $work/err against: its name, the status, a part of standard error
# ('': nothing is said), and the whole of standard output ('-': any).
expect() {
    wrong=
    [ "$status" = "$2" ] || wrong="$wrong status $status, not $2;"
    if [ -z "$3" ]; then
        [ ! -s "$work/err" ] || wrong="$wrong standard error is not empty;"
    else
        grep -qF -- "$3" "$work/err" || wrong="$wrong standard error has no '$3';"
    fi
    if [ "$4" != - ]; then
        printf '%s' "$4" >"$work/lines"
        cmp -s "$work/lines" "$work/out" || wrong="$wrong standard output differs;"
    fi
    if [ -z "$wrong" ]; then
        passed=$((passed + 1))
        echo "ok      $1"
    else
        failed=$((failed + 1))
        echo "FAILED  $1:$wrong"
        sed 's/^/        standard error: /' "$work/err"
    fi
}

# Runs a script of ours, with what is said and written kept.
keep() {
    "$@" >"$work/out" 2>"$work/err"
    status=$?
}

left_out() {
    echo "left out: $1"
}

replay=$here/replay
trial="sh $here/tools/trial.sh"
many="sh $here/tools/replay_many.sh"
whole=$here/examples/whole-case.journal
cut=$here/examples/cut.journal
version=$here/examples/version-2.journal
whole_lines='0 0 0 1
0 0 0 2
0 0 1 1
3 0 1 1
end 20
'
cut_lines='0 0 0 1
0 0 0 2
5 0 0 2
end 10 20
'
mkdir "$work/a folder"
i=0
while [ $i -lt 5000 ]; do
    cat "$whole"
    i=$((i + 1))
done >"$work/long"
"$replay" "$work/long" >"$work/long.lines" 2>/dev/null

# ---- ./replay: what it is given
keep "$replay" <"$whole"
expect 'a journal on standard input' 0 '' "$whole_lines"
keep "$replay" "$whole"
expect 'a journal as a file' 0 '' "$whole_lines"
keep "$replay" </dev/null
expect 'no byte' 0 '' 'end
'
cp "$whole" "$work/a folder/a journal"
keep "$replay" "$work/a folder/a journal"
expect 'a path with a space' 0 '' "$whole_lines"
ln -s "$replay" "$work/a link"
ln -s "a link" "$work/a link to it"
keep "$work/a link to it" "$whole"
expect 'through a link to a link' 0 '' "$whole_lines"
cp "$whole" "$work/-journal"
status=$(cd "$work" && "$replay" -- -journal >"$work/out" 2>"$work/err"; echo $?)
expect 'a name that begins with -, behind --' 0 '' "$whole_lines"
keep "$replay" "$whole" "$cut" "$whole"
expect 'several files, one broken: all are run' 1 "$cut:" "$whole_lines$cut_lines$whole_lines"
keep "$replay" "$whole" "$work/missing" "$cut"
expect 'several files, one missing: the highest status' 2 "$work/missing is not there" "$whole_lines$cut_lines"
keep "$replay" --help
[ "$(grep -c '^  [0-4]  ' "$work/out")" -eq 5 ] || status="$status, and not all statuses are named"
expect '--help names the five statuses' 0 '' -
keep "$replay" --unknown
expect 'an unknown option' 2 '--unknown is no option' ''
keep "$replay" "$work/a folder"
expect 'a folder as a file' 2 "a folder is a folder: give it a journal's file" ''
keep "$replay" "$work/missing"
expect 'a missing file' 2 'missing is not there' ''
if [ "$(id -u)" -eq 0 ]; then
    left_out 'a file that may not be read: root reads all'
else
    cp "$whole" "$work/shut"
    chmod 000 "$work/shut"
    keep "$replay" "$work/shut"
    expect 'a file that may not be read' 2 "can't be read" ''
fi

# ---- ./replay: journals that break
keep "$replay" <"$cut"
expect 'a record cut short' 1 'record 3, which begins at byte 16 ' "$cut_lines"
keep "$replay" <"$version"
expect 'a record of another version' 1 'record 3, which begins at byte 16 ' -
printf '\000\006\001\012\000\000\000\001' >"$work/unknown"
keep "$replay" "$work/unknown"
expect 'an unknown operation' 1 'record 1, which begins at byte 0 ' '5 0 0 0
end
'
{ cat "$work/long" && cat "$work/unknown"; } >"$work/late"
keep "$replay" "$work/late"
expect 'a record that breaks far behind' 1 'record 20001, which begins at byte 200000 ' -

# ---- ./replay: reading and writing that fail
if [ -c /dev/full ]; then
    "$replay" "$whole" >/dev/full 2>"$work/err"
    status=$?
    expect 'a full disk' 4 'standard output could not be written: No space left on device' -
    "$replay" "$work/long" "$whole" >/dev/full 2>"$work/err"
    status=$?
    expect 'a full disk, several files' 4 'what stands there is not complete' -
else
    left_out 'a full disk: no /dev/full'
fi
"$replay" "$whole" >&- 2>"$work/err"
status=$?
expect 'a closed standard output' 4 'standard output is closed' -
keep "$replay" <&-
expect 'a closed standard input' 3 'standard input could not be read' ''
keep "$replay" <"$work/a folder"
expect 'a folder as standard input' 3 'it is a folder' ''
"$replay" 0>"$work/write-only" >"$work/out" 2>"$work/err"
status=$?
expect 'a standard input that is open for writing alone' 3 'not open for reading' ''
{
    "$replay" "$work/long" 2>"$work/err"
    echo $? >"$work/status"
} | head -n 1 >"$work/out"
status=$(cat "$work/status")
expect 'a reader that goes away' 4 'standard output could not be written: Broken pipe' '0 0 0 1
'

# ---- ./replay: what stands around the program
(
    ulimit -s 120
    "$replay" "$whole" >"$work/out" 2>"$work/err"
)
status=$?
expect 'a program that the system ends' 2 'the program was ended before its time' ''
if (PATH=/usr/bin:/bin && command -v rt) >/dev/null; then
    left_out 'a machine without the kit: rt stands in /usr/bin or /bin'
else
    keep env PATH=/usr/bin:/bin "$replay" "$whole"
    expect 'a machine without the kit' 2 'the Rattle kit is missing' ''
fi
mkdir "$work/copy" "$work/copy/crates"
cp -r "$replay" "$here/tools" "$work/copy"
echo 'replay: nothing' >"$work/copy/crates.txt"
keep env TMPDIR="$work" "$work/copy/replay" "$whole"
expect 'a program that can not be built' 2 'the program could not be built' ''

# ---- trial
printf 'T 3 2\n0 1 7\n' >"$work/script"
printf 'T 3 2\n0 1 7\n0 77\n0 1 8\n' >"$work/broken script"
keep $trial <"$work/script"
expect 'trial: a script' 0 '' 'T 3 2
0 0 . | 0 1 o0 : 7 1001 1002 | 0 0 o0 : 2000 2001
'
keep $trial <"$work/broken script"
expect 'trial: a broken line' 1 'trial: line 3 is broken' 'T 3 2
0 0 . | 0 1 o0 : 7 1001 1002 | 0 0 o0 : 2000 2001
broken line 3
'
keep $trial <&-
expect 'trial: a closed standard input' 3 'trial: standard input could not be read' ''
keep $trial <"$work/a folder"
expect 'trial: a folder' 3 'it is a folder' ''
keep $trial word <"$work/script"
expect 'trial: a word too many' 2 'it takes no words' ''
if [ -c /dev/full ]; then
    $trial <"$work/script" >/dev/full 2>"$work/err"
    status=$?
    expect 'trial: a full disk' 4 'trial: standard output could not be written: No space left' -
    $trial <"$here/crates/trial/stdin" >/dev/full 2>"$work/err"
    status=$?
    [ "$(grep -c 'No space' "$work/err")" -eq 1 ] || status="$status, and not said once"
    expect 'trial: a full disk in the middle of a script, said once' 4 'trial: standard output could not be written' -
fi
$trial <"$work/script" >&- 2>"$work/err"
status=$?
expect 'trial: a closed standard output' 4 'standard output is closed' -

# ---- replay_many
{
    printf '\000\000\000\050'
    cat "$whole"
} >"$work/many"
{
    cat "$work/many"
    printf '\000\000\000\010'
    cat "$work/unknown"
    cat "$work/many"
} >"$work/many broken"
{
    cat "$work/many"
    printf '\000\000\000\062'
    cat "$whole"
} >"$work/many cut"
{
    cat "$work/many"
    printf '\000\000'
} >"$work/many cut length"
keep $many <"$work/many"
expect 'replay_many: a journal' 0 '' "$whole_lines"
keep $many <"$work/many broken"
expect 'replay_many: a broken journal; the next is run' 1 'replay_many: journal 2: record 1, which begins at byte 0 ' \
    "${whole_lines}5 0 0 0
end
$whole_lines"
keep $many <"$work/many cut"
expect 'replay_many: a journal cut short' 1 'replay_many: journal 2 is cut short: 10 of its bytes are missing' \
    "$whole_lines$whole_lines"
keep $many <"$work/many cut length"
expect 'replay_many: a length cut short' 1 'replay_many: journal 2 is cut short: its length' "$whole_lines"
keep $many <&-
expect 'replay_many: a closed standard input' 3 'replay_many: standard input could not be read' ''
keep $many <"$work/a folder"
expect 'replay_many: a folder' 3 'it is a folder' ''
if [ -c /dev/full ]; then
    $many <"$work/many" >/dev/full 2>"$work/err"
    status=$?
    expect 'replay_many: a full disk' 4 'replay_many: standard output could not be written: No space left' -
fi
$many <"$work/many" >&- 2>"$work/err"
status=$?
expect 'replay_many: a closed standard output' 4 'standard output is closed' -

# ---- calls that come late, are interrupted or fail in the middle: made so by C
cat >"$work/late.c" <<'END'
// late D PROGRAM WORDS: makes descriptor D one that does not wait, and becomes the program.
#include <fcntl.h>
#include <stdlib.h>
#include <unistd.h>
int main(int count, char **words) {
    int d = atoi(words[1]);
    (void)count;
    fcntl(d, F_SETFL, fcntl(d, F_GETFL) | O_NONBLOCK);
    execv(words[2], words + 2);
    return 9;
}
END
cat >"$work/calls.c" <<'END'
// Stands before the C library's read and write: read number READ of standard input, or write number WRITE to standard
// output, fails with ERROR; with SHORT each moves one byte at most.
#define _GNU_SOURCE
#include <errno.h>
#include <stdlib.h>
#include <sys/syscall.h>
#include <unistd.h>
static int reads, writes;
static int fails(const char *call, int count) {
    return getenv(call) && atoi(getenv(call)) == count;
}
static long move(long number, int fd, void *buf, size_t n, int watched, const char *call, int *count) {
    if (fd == watched) {
        if (fails(call, ++*count)) {
            errno = atoi(getenv("ERROR"));
            return -1;
        }
        if (getenv("SHORT") && n > 1) n = 1;
    }
    return syscall(number, fd, buf, n);
}
ssize_t read(int fd, void *buf, size_t n) { return move(SYS_read, fd, buf, n, 0, "READ", &reads); }
ssize_t write(int fd, const void *buf, size_t n) { return move(SYS_write, fd, (void *)buf, n, 1, "WRITE", &writes); }
END
if command -v cc >/dev/null && cc -o "$work/late" "$work/late.c"; then
    {
        head -c 11 "$whole"
        sleep 1
        tail -c +12 "$whole"
    } | "$work/late" 0 "$replay" >"$work/out" 2>"$work/err"
    status=$?
    expect 'a late input that does not wait' 0 '' "$whole_lines"
    {
        "$work/late" 1 "$replay" "$work/long" 2>"$work/err"
        echo $? >"$work/status"
    } | {
        sleep 1
        cat
    } >"$work/out"
    status=$(cat "$work/status")
    cmp -s "$work/out" "$work/long.lines" || status="$status, and lines are lost"
    expect 'a full output that does not wait' 0 '' -
else
    left_out 'late input and output: no C compiler'
fi

# Runs the program itself, behind the calls above, with the settings given.
behind() {
    env "$@" LD_PRELOAD="$work/calls.so" "$program" status=3 <"$whole" >"$work/out" 2>"$work/err" 3>"$work/status"
    status=$(cat "$work/status")
}
if command -v cc >/dev/null && cc -shared -fPIC -o "$work/calls.so" "$work/calls.c"; then
    behind READ=1 ERROR=4
    expect 'an interrupted read' 0 '' "$whole_lines"
    behind WRITE=1 ERROR=4
    expect 'an interrupted write' 0 '' "$whole_lines"
    behind READ=1 ERROR=11
    expect 'a read that is not ready' 0 '' "$whole_lines"
    behind SHORT=1
    expect 'reads and writes of one byte' 0 '' "$whole_lines"
    behind SHORT=1 READ=13 ERROR=5
    expect 'a read that fails in the middle: what was read has its lines, and there is no end line' 3 \
        'standard input could not be read: Input/output error' '0 0 0 1
'
    behind SHORT=1 WRITE=9 ERROR=5
    expect 'a write that fails in the middle' 4 'standard output could not be written: Input/output error' '0 0 0 1
'
else
    left_out 'interrupted and failing calls: no C compiler'
fi

echo "$passed passed, $failed failed"
[ "$failed" -eq 0 ]
