# What bench/run and the scripts that it calls share, which source it: the rows of their tables, and how they end.
# shellcheck shell=bash disable=SC2034,SC2154

# 1 where a bound is not kept.
status=0

# The table's name is that of the script.
stop() {
    printf '%s: %s\n' "bench/$(basename "$0")" "$1" >&2
    exit 2
}

# row WHAT NUMBER [BOUND]
row() { printf '%-62s %14s %14s\n' "$1" "$2" "${3-}"; }

# ratio A B: A / B, with three digits after the point.
ratio() { awk -v a="$1" -v b="$2" 'BEGIN { printf "%.3f", a / b }'; }

# broken WHAT: names a bound that is not kept.
broken() {
    printf 'NOT KEPT: %s\n' "$1"
    status=1
}

# at_most WHAT BOUND: what was counted last, in `counted`, is less than so many instructions.
at_most() {
    row "$1" "$counted" "$2"
    [ "$counted" -lt "$2" ] || broken "$1: less than $2 instructions"
}

# needs_program: what is measured is the program that was proved. Called without words it says how it is called, once it is
# built.
needs_program() {
    unset JKERNEL_TRY
    program=crates/jkernel_program/out/jkernel_program
    command -v valgrind >/dev/null || stop 'valgrind is not installed'
    ./jkernel </dev/null 2>&1 >/dev/null | grep -v '^usage: ' >&2
    [ -x "$program" ] || stop 'the program is not built: ./jkernel says why'
}

# count_of ROOT SCRIPT: sets `counted` to the instructions of a run, which must end with status 0. What it prints is in $room/out.
# Cachegrind without its caches counts what callgrind counts, in less than half the time.
count_of() {
    valgrind --tool=cachegrind --cache-sim=no --cachegrind-out-file=/dev/null --log-file="$room/log" \
        "$program" "$1" "$2" </dev/null >"$room/out" 2>"$room/err" ||
        stop "the run of $2 on $1 ended with status $?: $(head -n 1 "$room/err")"
    counted=$(awk '/ I +refs: / { gsub(",", ""); print $NF }' "$room/log")
    [ -n "$counted" ] || stop "cachegrind said nothing of the run of $2 on $1"
}

# count_inside ROOT SCRIPT FUNCTION..: sets `counted` to the instructions that such a run takes inside these functions and what they call. A
# function is named as it stands in the program, up to its type parameters.
count_inside() {
    local root=$1 script=$2
    shift 2
    valgrind --tool=callgrind --callgrind-out-file=/dev/null --log-file="$room/log" "${@/#/--toggle-collect=}" \
        "$program" "$root" "$script" </dev/null >"$room/out" 2>"$room/err" ||
        stop "the run of $script on $root ended with status $?: $(head -n 1 "$room/err")"
    counted=$(awk '/ Collected : / { print $NF }' "$room/log")
    [ "${counted:-0}" -gt 0 ] || stop "callgrind saw none of $* in the run of $script on $root"
}
