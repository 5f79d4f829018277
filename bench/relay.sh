#!/usr/bin/env bash
# Times `relay 4 64` on 100,000 lines beside a plain Rust program with a bounded queue under one lock.
# Wants the proved program (./.ci/run, or rt run in crates/funnel_tool) and rustc.
set -eu
. "$(dirname "$0")/tool.sh"
plain relay
seq 1 100000 >"$work/lines"
timed plain "$work/lines" "$work/plain_relay" 4 64
timed relay "$work/lines" "$tool" relay 4 64
for name in plain relay; do
    cut -d' ' -f2 "$work/out.$name" | sort -n | cmp - "$work/lines"
    echo "$name $(seconds "${least[$name]}")"
done
