#!/usr/bin/env bash
# Times `tally 1 64` and `tally 4 64` on 32 MB beside a plain Rust program with as many threads.
# Wants the proved program (./.ci/run, or rt run in crates/funnel_tool) and rustc.
set -eu
. "$(dirname "$0")/tool.sh"
plain tally
yes "a line of forty bytes, its newline too." | head -c 33554432 >"$work/text" || true
race() { # WORKERS ROUNDS: the plain program and the tool in turn, so that both meet the machine's slow moments
    least=()
    for _ in $(seq "$2"); do
        timed plain "$work/text" "$work/plain_tally" "$1"
        timed ours "$work/text" "$tool" tally "$1" 64
    done
    cmp "$work/out.plain" <(cut -d' ' -f1-4 "$work/out.ours")
    echo "$1 workers: plain $(seconds "${least[plain]}"), tally $(seconds "${least[ours]}"), $(over "${least[ours]}" "${least[plain]}") times (best of $2 each)"
}
race 1 20
race 4 20
