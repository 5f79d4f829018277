#!/usr/bin/env bash
# Runs the tool with one request for memory refused, each in turn, and says how often each ending came. Fails where a run that was refused ended otherwise than with status 6, its line and nothing written, or than with status 0.
# Usage: bench/refused.sh INPUT WORDS.., as bench/refused.sh examples/quota.csv replay 1
# Wants the proved program (./.ci/run, or rt run in crates/funnel_tool) and rustc.
set -euo pipefail
input=$(realpath "$1")
shift
. "$(dirname "$0")/tool.sh"
rustc --edition 2021 -O --crate-type cdylib -o "$work/refuse.so" bench/refuse_one.rs
"$tool" "$@" <"$input" >"$work/whole"
done_in_a_row=0 number=0
while [ "$done_in_a_row" -lt 40 ]; do
    number=$((number + 1))
    status=0
    env REFUSE_AT=$number LD_PRELOAD="$work/refuse.so" "$tool" "$@" <"$input" >"$work/out" 2>"$work/err" || status=$?
    if [ "$status" = 0 ]; then
        done_in_a_row=$((done_in_a_row + 1))
        if cmp -s "$work/out" "$work/whole"; then echo "done"; else echo "done, with another text"; fi
    else
        done_in_a_row=0
        line=$(cat "$work/err")
        if [ "$status" != 6 ] || [ "$line" != "no memory" ]; then
            echo "request $number: status $status, and the line '$line'" >&2
            exit 1
        fi
        [ ! -s "$work/out" ] || { echo "request $number: status $status, and something was written" >&2; exit 1; }
        echo "status $status: $line"
    fi
done | sort | uniq -c
