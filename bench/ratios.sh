#!/usr/bin/env bash
# Prints as one table what calls and commands take beside plain programs of the same jobs: the best of so many runs, the ratio of these, and that of the medians. All take turns, so that each meets the machine's slow moments. By several threads the medians tell more: the best may be the run in which the threads were least at once.
# Usage: bench/ratios.sh [RUNS [ADDITIONS OF EACH THREAD]]
# Wants the proved programs (./.ci/run, or rt run in crates/funnel_tool and in crates/funnel_bench), rustc and python3; and valgrind, for the instructions.
set -eu
. "$(dirname "$0")/tool.sh"
runs=${1:-9} additions=${2:-1000000}
adder=$(proved funnel_bench)
plain funnel replay relay drill shared_drill
bash bench/trace.sh 20000 1 40 >"$work/few"
bash bench/trace.sh 200000 1 40 >"$work/rows"
bash bench/trace.sh 999960 1 40 >"$work/most" # with the 40 openings as many records as a trace may have
bash bench/trace.sh 200000 4 40 >"$work/rows4"
seq 1 200000 >"$work/lines"
bash bench/norow.sh 65536 >"$work/norow"

declare -A past=() # how many in 100 calls went past a funnel, in the run whose time was taken
added() { # OF PROGRAM: takes the time of an addition on each ground by each number of threads, in tenths of a nanosecond
    local ground threads took some name
    "$2" "$additions" >"$work/added"
    while read -r ground threads took _ _ _ some _; do
        name="$1 $ground ${threads%:}" took=$((10#${took/./}))
        take "$name" "$took"
        if [ "${least[$name]}" = "$took" ]; then past[$name]=$some; fi
    done <"$work/added"
}
instructions() { # NAME COMMAND..
    local name=$1
    shift
    valgrind --tool=callgrind --callgrind-out-file=/dev/null "$@" <"$work/few" >"$work/out.$name" 2>"$work/counted"
    grep -q 'Collected : [0-9]' "$work/counted" || { cat "$work/counted" >&2; return 1; }
    take "$name" "$(sed -n 's/.*Collected : //p' "$work/counted")"
}
notes=()
peak() { # NAME INPUT ROWS COMMAND..: takes the bytes of memory for each row
    local name=$1
    shift
    bench/memory.py "$@" >"$work/peak"
    if grep -q '^at most' "$work/peak"; then notes+=("$name: at most, since bench/memory.py takes as much itself"); fi
    take "$name" "$(sed 's/.*, \([0-9]*\) bytes a row/\1/' "$work/peak")"
}
run_all() { # once each
    added ours "$adder"
    added plain "$work/plain_funnel"
    timed "replay" "$work/rows" "$tool" replay 1
    timed "plain replay" "$work/rows" "$work/plain_replay"
    timed "replay most" "$work/most" "$tool" replay 1
    timed "plain replay most" "$work/most" "$work/plain_replay"
    timed "replay 4" "$work/rows4" "$tool" replay 4
    timed "plain replay 4" "$work/rows4" "$work/plain_replay"
    timed "relay" "$work/lines" "$tool" relay 4 64
    timed "plain relay" "$work/lines" "$work/plain_relay" 4 64
    timed "relay 64 1" "$work/lines" "$tool" relay 64 1
    timed "relay 64 4" "$work/lines" "$tool" relay 64 4
    timed "relay 64 16" "$work/lines" "$tool" relay 64 16
    timed "drill" /dev/null "$tool" drill 0 200000 4
    timed "plain drill" /dev/null "$work/plain_drill" 0 200000 4
    timed "shared drill" /dev/null "$work/plain_shared_drill" 0 200000 4
    timed "drill 1" /dev/null "$tool" drill 0 200000 1
    timed "plain drill 1" /dev/null "$work/plain_drill" 0 200000 1
    timed "play" "$work/norow" "$tool" play
}
check_texts() { # that the programs do the same jobs, and that the script answers what it is for
    cmp "$work/out.replay" "$work/out.plain replay"
    cmp "$work/out.replay most" "$work/out.plain replay most"
    cmp <(grep ^total "$work/out.replay 4") <(grep ^total "$work/out.plain replay 4")
    cmp "$work/out.drill" "$work/out.plain drill"
    cmp "$work/out.drill" "$work/out.shared drill"
    cmp "$work/out.drill 1" "$work/out.plain drill 1"
    for name in "relay" "plain relay" "relay 64 1" "relay 64 4" "relay 64 16"; do
        cmp <(cut -d' ' -f2 "$work/out.$name" | sort -n) "$work/lines"
    done
    [ "$(grep -c ^norow "$work/out.play")" -gt 65000 ] || { echo "play: few lines answer norow" >&2; return 1; }
}
nanos() { printf '%d.%d ns' $(($1 / 10)) $(($1 % 10)); } # TENTHS
millions() { printf '%d.%02d M' $(($1 / 1000000)) $(($1 % 1000000 / 10000)); }
bytes() { printf '%d B' "$1"; }
row() { printf '| %-36s | %10s | %-17s | %10s | %7s | %7s |\n' "$@"; } # WHAT OURS OTHER ITS RATIO MEDIANS
against() { # WHAT OURS OTHER NAME SHOW: the row of two names, the second of them called NAME
    row "$1" "$("$5" "${least[$2]}")" "$4" "$("$5" "${least[$3]}")" "$(over "${least[$2]}" "${least[$3]}")" "$(over "$(median "$2")" "$(median "$3")")"
}
additions_of() { # THREADS
    local what="add, threads: $1"
    against "$what" "ours funnel $1" "plain funnel $1" "plain funnel" nanos
    against "$what" "ours funnel $1" "ours word $1" "one fetch-and-add" nanos
    against "$what" "ours funnel $1" "ours lock $1" "a lock" nanos
    row "past the funnel, threads: $1, in 100" "${past["ours funnel $1"]}" "plain funnel" "${past["plain funnel $1"]}" "" ""
}
table() {
    row "What" "Ours" "Beside" "Its" "Ratio" "Medians"
    row "---" "---" "---" "---" "---" "---"
    additions_of 1
    additions_of 4
    against "replay 1, 200,000 rows" "replay" "plain replay" "plain program" seconds
    against "replay 1, 999,960 rows" "replay most" "plain replay most" "plain program" seconds
    against "replay 4, 200,000 rows" "replay 4" "plain replay 4" "plain program" seconds
    if [ -n "${least["few"]:-}" ]; then
        against "replay 1, 20,000 rows, instructions" "few" "plain few" "plain program" millions
    else
        row "replay 1, 20,000 rows, instructions" "skipped" "valgrind missing" "" "" ""
    fi
    against "relay 4 64, 200,000 lines" "relay" "plain relay" "plain program" seconds
    against "relay 64 4, 200,000 lines" "relay 64 4" "relay 64 1" "relay 64 1" seconds
    against "relay 64 16, 200,000 lines" "relay 64 16" "relay 64 1" "relay 64 1" seconds
    against "drill 0 200000 4" "drill" "plain drill" "one thread, sums" seconds
    against "drill 0 200000 4" "drill" "shared drill" "one shared word" seconds
    against "drill 0 200000 1" "drill 1" "plain drill 1" "one thread, sums" seconds
    against "replay 1, memory a row" "memory" "plain memory" "plain program" bytes
    against "replay 4, memory a row" "memory 4" "plain memory 4" "plain program" bytes
    row "play, 65,536 lines, nearly all norow" "$(seconds "${least["play"]}")" "" "" "" ""
    row "the same, memory a line" "$(bytes "${least["play memory"]}")" "" "" "" ""
}

for _ in $(seq "$runs"); do run_all; done
check_texts
peak "memory" "$work/rows" 200000 "$tool" replay 1
peak "plain memory" "$work/rows" 200000 "$work/plain_replay"
peak "memory 4" "$work/rows4" 200000 "$tool" replay 4
peak "plain memory 4" "$work/rows4" 200000 "$work/plain_replay"
peak "play memory" "$work/norow" 65536 "$tool" play
if command -v valgrind >/dev/null; then
    instructions "few" "$tool" replay 1
    instructions "plain few" "$work/plain_replay"
fi
echo "best of $runs, $additions additions of each thread, $(nproc) processors, load $(cut -d' ' -f1 /proc/loadavg)"
table
for note in "${notes[@]}"; do echo "$note"; done
