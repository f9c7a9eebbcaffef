#!/usr/bin/env bash
# Times LEAST over gate texts beside picosat on the clauses that say the same, and beside berkeley-abc, whole process against whole process, in one
# run: bench/gates.sh [ROUNDS]
# Prints a line for each text: the median of ROUNDS runs (51 unless given) of each program and the ratio of ours to picosat's, by the medians and by
# the quickest runs, which other work on the machine moves less. Then each goal, by the medians, with the worst that was measured.
# Ends with status 1 if a program disagrees on whether a text is satisfiable.
set -euo pipefail
cd "$(dirname "$0")/.."
rounds=${1:-51}
export LC_ALL=C

built=crates/least_either/out/least_either
[ -x $built ] || (cd crates/least_either && rt run -- data/chain.cnf 3 > /dev/null)
work=$(mktemp -d)
trap 'rm -rf "$work"' EXIT
rustc --edition 2021 -O -o "$work/generate" bench/generate_gates.rs
"$work/generate" "$work"

. bench/common.sh
find_peers picosat berkeley-abc
slow=berkeley-abc

run() {
    local program=$1 text=$work/$2 contacts=$3 start end status=0
    case $program in
        least_file) set -- $built "$text.aag" "$contacts" ;;
        picosat) set -- picosat -n "$text.cnf" ;;
        berkeley-abc) set -- berkeley-abc -s -q "read_blif $text.blif; strash; sat" ;;
    esac
    start=$EPOCHREALTIME
    "$@" > "$work/out" 2> "$work/err" || status=$?
    end=$EPOCHREALTIME
    took=$((${end/./} - ${start/./}))
    case $program in
        least_file) least_verdict "$contacts" "$status" ;;
        picosat) sat_verdict "$status" ;;
        berkeley-abc)
            verdict="status $status"
            if grep -q UNSATISFIABLE "$work/out"; then verdict=no; elif grep -q SATISFIABLE "$work/out"; then verdict=yes; fi
            ;;
    esac
}

format='%-11s %-20s %5s %-4s %9s %9s %9s %7s %9s\n'
# shellcheck disable=SC2059
printf "$format" kind text gates sat ours/ms picosat abc ratio quickest
while read -r kind name contacts gates; do
    compare "$name" "$contacts"
    medians=$(ratio median picosat)
    note_ratio "$kind" "$medians"
    # shellcheck disable=SC2059
    printf "$format" "$kind" "$name" "$gates" "$ours" "$(millis least_file)" "$(millis picosat)" "$(millis berkeley-abc)" "$medians" "$(ratio least picosat)"
done < "$work/index"

echo
goal "comparators, adders and interlocks" structured 1.0 picosat
goal "bits of a 12 by 12 multiplier" multiplier 10 picosat
goal "2,048 random gates over 32 inputs" random 10 picosat
agreed
