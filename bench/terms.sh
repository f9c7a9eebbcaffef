#!/usr/bin/env bash
# Times TERMS beside the canonical irredundant covers of berkeley-abc (`satclp -c`), whole process against whole process, in one run: bench/terms.sh [ROUNDS]
# MAKE is the function and BREAK its complement. Prints a line for each function: the terms that each program finds, the median of ROUNDS runs
# (21 unless given) of each, and the ratio of ours to the peer's. Then the goal, over the functions of at most 64 terms.
set -euo pipefail
cd "$(dirname "$0")/.."
rounds=${1:-21}
export LC_ALL=C

if ! command -v berkeley-abc > /dev/null; then
    echo "berkeley-abc is not installed: skipped"
    exit 0
fi
built=crates/terms_file/out/terms_file
[ -x $built ] || (cd crates/terms_file && rt run -- data/make.cnf data/break.cnf 3 > /dev/null)
work=$(mktemp -d)
trap 'rm -rf "$work"' EXIT
rustc --edition 2021 -O -o "$work/functions" bench/functions.rs
"$work/functions" "$work"

# Runs one program on a function once; sets `took` to its microseconds and `found` to how many terms it says.
run() {
    local program=$1 function=$2 contacts=$3 start end
    case $program in
        terms_file) set -- $built "$function.make.cnf" "$function.break.cnf" "$contacts" ;;
        abc) set -- berkeley-abc -c "read_blif $function.blif; strash; satclp -c; print_stats" ;;
    esac
    start=$EPOCHREALTIME
    "$@" > "$work/out" 2> "$work/err"
    end=$EPOCHREALTIME
    took=$((${end/./} - ${start/./}))
    case $program in
        terms_file) found=$(sed -n '1s/^terms //p; 1s/^refused \([0-9]*\).*/refused-\1/p' "$work/out") ;;
        abc) found=$(sed -nE 's/.*cube = *([0-9]+).*/\1/p' "$work/out") ;;
    esac
}

median() { sort -n "$1" | awk '{ all[NR] = $1 } END { print all[int((NR + 1) / 2)] }'; }

format='%-11s %-20s %8s %12s %6s %9s %9s %7s\n'
# shellcheck disable=SC2059
printf "$format" kind function contacts terms cubes ours/ms abc/ms ratio
: > "$work/ratios"
while read -r kind name contacts; do
    rm -f "$work"/times.*
    # The programs take turns, so that other work on the machine falls on both alike.
    for ((round = 0; round < rounds; round++)); do
        for program in terms_file abc; do
            run "$program" "$work/$name" "$contacts"
            echo "$took" >> "$work/times.$program"
            if [ "$program" = terms_file ]; then ours=$found; else peer=$found; fi
        done
    done
    us=$(median "$work/times.terms_file")
    abc=$(median "$work/times.abc")
    ratio=$(awk "BEGIN { printf \"%.2f\", $us / $abc }")
    case $ours in refused-*) ;; *) echo "$ratio" >> "$work/ratios" ;; esac
    # shellcheck disable=SC2059
    printf "$format" "$kind" "$name" "$contacts" "$ours" "$peer" \
        "$(awk "BEGIN { printf \"%.2f\", $us / 1000 }")" "$(awk "BEGIN { printf \"%.2f\", $abc / 1000 }")" "$ratio"
done < "$work/index"

echo
awk '{ n++; if ($1 <= 0.5) met++; if ($1 > worst) worst = $1 }
    END { printf "functions of at most 64 terms: at most 0.5 times abc: %s (%d of %d functions, worst %.2f)\n", met == n ? "met" : "not met", met, n, worst }' "$work/ratios"
