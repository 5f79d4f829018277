#!/usr/bin/env bash
# Writes a trace of so many rows by so many workers on so many tenants.
set -eu
rows=${1:-200000} workers=${2:-16} tenants=${3:-40}
awk -v rows="$rows" -v workers="$workers" -v tenants="$tenants" 'BEGIN {
    print "worker,op,tenant,amount"
    for (t = 0; t < tenants; t++) printf "0,open,tenant-%d,%d\n", t, 1000000 + t
    for (i = 0; i < rows; i++) {
        op = i % 10 == 9 ? "read" : i % 10 == 8 ? "direct" : i % 3 == 2 ? "take" : "add"
        printf "%d,%s,tenant-%d,%d\n", i % workers, op, (i * 7) % tenants, op == "read" ? 0 : 1 + (i * 31) % 97
    }
}'
