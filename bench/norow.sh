#!/usr/bin/env bash
# Writes a script of so many lines of which nearly all answer `norow`: the last of 64 passes leads a batch, publishes it and stalls before it leaves, and the first has filled all its eight rows since.
set -eu
lines=${1:-65536}
awk -v lines="$lines" 'BEGIN {
    print "funnel 64 1 1 8 0"
    print "63 add 1"
    for (i = 0; i < 9; i++) print "63 step"
    for (i = 0; i < 8; i++) print "0 add 1\n0 poll"
    for (i = 28; i < lines; i++) print "0 add 1"
    print "63 poll"
}'
