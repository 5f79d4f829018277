#!/usr/bin/env bash
# Times `replay 1` beside a plain Rust program of the same job on 200,000 rows, and then growth to 1,000,000 rows, `replay 16`, a large drill, and the memory of the largest pool.
# Wants the proved program (./.ci/run, or rt run in crates/funnel_tool), rustc and python3.
set -eu
. "$(dirname "$0")/tool.sh"
plain replay
race() { # ROWS ROUNDS: the plain program and the tool in turn, so that both meet the machine's slow moments
    least=()
    for _ in $(seq "$2"); do
        timed plain "$work/trace" "$work/plain_replay"
        timed ours "$work/trace" "$tool" replay 1
    done
    cmp "$work/out.plain" "$work/out.ours"
    echo "$1 rows, 1 worker, 40 tenants: plain $(seconds "${least[plain]}"), replay 1 $(seconds "${least[ours]}"), $(over "${least[ours]}" "${least[plain]}") times (best of $2 each)"
}
alone() { # NAME INPUT COMMAND..
    for _ in {1..9}; do timed "$@"; done
    echo "$1 $(seconds "${least[$1]}") (best of 9)"
}
for rows in 200000 999960; do # with the 40 openings as many records as a trace may have
    bash bench/trace.sh "$rows" 1 40 >"$work/trace"
    race "$rows" $((rows < 500000 ? 40 : 15))
done
bash bench/trace.sh 200000 16 40 >"$work/trace"
alone "200000 rows, 40 tenants: replay 16" "$work/trace" "$tool" replay 16
alone "drill of 291000 rows by 16 workers" /dev/null "$tool" drill 0 291000 16
bash bench/trace.sh 20000 64 256 >"$work/wide"
echo "20000 rows, 64 workers, 256 tenants: $(bench/memory.py "$work/wide" 20000 "$tool" replay 64)"
