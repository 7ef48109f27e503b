#!/bin/sh
# sh tools/replay_many.sh < FILE: runs many journals, each behind its length in four bytes (crates/replay_many).
# The status: 0 all well; 1 a journal breaks or is cut short, which standard error names; 2 it could not be run;
# 3 a read failed; 4 a write failed.
set -eu
name=replay_many
here=$(cd "$(dirname "$0")/.." && pwd -P)
. "$here/tools/program.sh"
[ $# -eq 0 ] || give_up 2 "it takes no words: sh tools/replay_many.sh < FILE"
build
run
exit "$status"
