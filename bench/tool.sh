# To be sourced by the scripts of this folder, under `set -eu`: goes to the top of the repository, names the proved tool as $tool and a folder for a run's files as $work, and has the functions that they share.
# shellcheck shell=bash disable=SC2034
cd "$(dirname "${BASH_SOURCE[0]}")/.." || exit 1
proved() { # NAME: the path of a proved program
    local program=$PWD/crates/$1/out/$1
    [ -x "$program" ] || { echo "first: ./.ci/run, or cd crates/$1 && rt run" >&2; return 1; }
    echo "$program"
}
tool=$(proved funnel_tool)
work=$(mktemp -d)
trap 'rm -rf "$work"' EXIT
plain() { # NAME..: builds the plain programs of these names, as $work/plain_NAME
    local name
    for name in "$@"; do rustc --edition 2021 -O -o "$work/plain_$name" "bench/plain_$name.rs"; done
}
declare -A least=() taken=() # of each name the least number that was taken, and all of them
take() { # NAME NUMBER
    if [ -z "${least[$1]:-}" ] || [ "$2" -lt "${least[$1]}" ]; then least[$1]=$2; fi
    taken[$1]+=" $2"
}
median() { # NAME: the middle of its numbers, of two the lesser
    tr ' ' '\n' <<<"${taken[$1]# }" | sort -n | awk '{ all[NR] = $1 } END { print all[int((NR + 1) / 2)] }'
}
timed() { # NAME INPUT COMMAND..: runs the command, its output in $work/out.NAME, and takes its microseconds
    local name=$1 input=$2 begun
    shift 2
    begun=${EPOCHREALTIME//[!0-9]/}
    "$@" <"$input" >"$work/out.$name"
    take "$name" $((${EPOCHREALTIME//[!0-9]/} - begun))
}
seconds() { # MICROSECONDS
    printf '%d.%04d s' $(($1 / 1000000)) $(($1 % 1000000 / 100))
}
over() { # NUMBER NUMBER: how many times the second the first is
    printf '%d.%02d' $(($1 / $2)) $(($1 * 100 / $2 % 100))
}
