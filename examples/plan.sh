#!/usr/bin/env bash
# Makes a new plan out of a former one: examples/plan.sh MODEL FORMER NEW [FAILED ..]
# On 0 the plan is in NEW. It ends with the status of the program.
set -u
program=$(dirname "$0")/../confsolve
model=$1 former=$2 new=$3
shift 3

answer=$("$program" reconfigure -- "$model" "$former" "$@")
status=$?
case $status in
    0) sed -n 1p <<<"$answer" >"$new" && sed 1d <<<"$answer" ;;
    1) echo 'no plan: each one breaks a constraint, or names what failed' ;;
    2) echo 'no best plan within 10,000 decisions' ;;
    3 | 4 | 5) echo 'no plan: the model is at fault, or a text is too large' ;;
    7 | 8) echo 'no plan: a file could not be read, or the answer not written' ;;
    9) echo 'no plan: the former plan is no JSON object, or a name that failed is unknown' ;;
    12) echo 'no plan: there was no memory' ;;
    *) echo "no plan: status $status" ;;
esac
exit "$status"
