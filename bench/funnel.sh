#!/bin/sh
# How long an addition of 1 takes by one, two and four threads at once: through a funnel with a pass for each, by one fetch-and-add of a word, and under a lock.
# Usage: bench/funnel.sh [ADDITIONS OF EACH THREAD]
set -eu
cd "$(dirname "$0")/../crates/funnel_bench"
exec rt run -- "${1:-100000}"
