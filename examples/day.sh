#!/usr/bin/env bash
# Answers events one by one, each with its status: examples/day.sh MODEL FORMER EVENTS LAST
# The state behind the last event is in LAST. It ends with 0 where each event was answered.
set -u
program=$(dirname "$0")/../confsolve
model=$1 former=$2 events=$3 last=$4
cp -- "$former" "$last"
failed=()
while read -r what path; do
    kept=()
    for it in "${failed[@]}"; do [ "$it" = "$path" ] || kept+=("$it"); done
    failed=("${kept[@]}")
    [ "$what" = repair ] || failed+=("$path")

    answer=$("$program" reconfigure -- "$model" "$last" "${failed[@]}")
    status=$?
    echo "$what $path: status $status" $(grep -v '^{' <<<"$answer")
    [ "$status" -le 2 ] || exit "$status"
    [ "$status" != 0 ] || sed -n 1p <<<"$answer" >"$last"
done <"$events"
