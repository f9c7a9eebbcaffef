#!/usr/bin/env bash
# Times LEAST over clause texts beside picosat and minisat, whole process against whole process, in one run: bench/least.sh [ROUNDS]
# Prints a line for each text: the median of ROUNDS runs (101 unless given) of each program, the ratio of ours to the quicker peer's, and the same
# ratio of the quickest runs, which other work on the machine moves less. Then each goal, by the medians, with the worst that was measured, and
# the time of one load of a long text. Ends with status 1 if a program disagrees on whether a text is satisfiable.
set -euo pipefail
cd "$(dirname "$0")/.."
rounds=${1:-101}
loads=500
export LC_ALL=C

built=crates/least_file/out/least_file
[ -x $built ] || (cd crates/least_file && rt run -- data/chain.cnf 3 > /dev/null)
work=$(mktemp -d)
trap 'rm -rf "$work"' EXIT
rustc --edition 2021 -O -o "$work/generate" bench/generate.rs
"$work/generate" "$work"

. bench/common.sh
find_peers picosat minisat

run() {
    local program=$1 text=$work/$2.cnf contacts=$3 repeat=${4:-1} start end status=0
    case $program in
        least_file) set -- $built "$text" "$contacts" "$repeat" ;;
        picosat) set -- picosat -n "$text" ;;
        minisat) set -- minisat -verb=0 "$text" ;;
    esac
    start=$EPOCHREALTIME
    "$@" > "$work/out" 2> "$work/err" || status=$?
    end=$EPOCHREALTIME
    took=$((${end/./} - ${start/./}))
    if [ "$program" = least_file ]; then least_verdict "$contacts" "$status"; else sat_verdict "$status"; fi
}

format='%-11s %-20s %-4s %9s %9s %9s %7s %9s\n'
# shellcheck disable=SC2059
printf "$format" kind text sat ours/ms picosat minisat ratio quickest
while read -r kind name contacts; do
    [ "$kind" != reading ] || continue
    compare "$name" "$contacts"
    medians=$(ratio median "${peers[@]}")
    note_ratio "$kind" "$medians"
    # shellcheck disable=SC2059
    printf "$format" "$kind" "$name" "$ours" "$(millis least_file)" "$(millis picosat)" "$(millis minisat)" "$medians" "$(ratio least "${peers[@]}")"
done < "$work/index"

# One load: the difference between many answers and one, over a text that answers as soon as it is read.
for ((round = 0; round < 5; round++)); do
    run least_file long-text 32 1
    once=$took
    run least_file long-text 32 $((loads + 1))
    echo $(((took - once) / loads)) >> "$work/loads"
done
load=$(median "$work/loads")
bytes=$(wc -c < "$work/long-text.cnf")

echo
goal "structured texts" structured 1.0 "the quicker peer"
goal "4,096 rules" many 1.0 "the quicker peer"
goal "3-literal rules at the threshold" threshold 5 "the quicker peer"
awk -v load="$load" -v bytes="$bytes" 'BEGIN { printf "reading %d bytes: under 2 ms: %s (%.3f ms)\n", bytes, load < 2000 ? "met" : "not met", load / 1000 }'
agreed
