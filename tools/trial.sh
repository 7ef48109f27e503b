#!/bin/sh
# sh tools/trial.sh < SCRIPT: plays a script of calls on two queues (crates/trial_run), a line of output for each.
# The status: 0 all well; 1 a line of the script is broken, which standard error names; 2 it could not be run;
# 3 a read failed; 4 a write failed.
set -eu
name=trial
here=$(cd "$(dirname "$0")/.." && pwd -P)
. "$here/tools/program.sh"
[ $# -eq 0 ] || give_up 2 "it takes no words: sh tools/trial.sh < SCRIPT"
build
run
exit "$status"
