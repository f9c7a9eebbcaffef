# What the benchmarks share. The script that sources it sets `work`, a folder, and `rounds`, and has a function `run PROGRAM NAME CONTACTS` that
# sets `took` to the microseconds of one run on a text and `verdict` to yes, no or what the program said else.
disagreements=0
: > "$work/ratios"

# Names in `peers` those of the programs that are installed.
find_peers() {
    local peer
    peers=()
    for peer in "$@"; do
        if command -v "$peer" > "$work/found"; then peers+=("$peer"); else echo "$peer is not installed: skipped"; fi
    done
}

median() { sort -n "$1" | awk '{ all[NR] = $1 } END { print all[int((NR + 1) / 2)] }'; }

least() { sort -n "$1" | sed -n 1p; }

# Whether least_file said yes or no; what it said else is told.
least_verdict() {
    local contacts=$1 status=$2
    read -r verdict < "$work/out" || verdict="status $status"
    case $status/$verdict in
        "0/contacts $contacts") verdict=yes ;;
        "0/refused 11 0") verdict=no ;;
    esac
}

# By the status with which a program ends that solves clause texts.
sat_verdict() {
    case $1 in
        10) verdict=yes ;;
        20) verdict=no ;;
        *) verdict="status $1" ;;
    esac
}

# Runs ours and the peers on a text; sets `ours` to our verdict. The programs take turns, so that other work on the machine falls on all of them alike;
# of a peer named in `slow` five runs do.
compare() {
    local name=$1 contacts=$2 round program
    rm -f "$work"/times.*
    for ((round = 0; round < rounds; round++)); do
        for program in least_file "${peers[@]}"; do
            if [ "$program" = "${slow:-}" ] && [ "$round" -gt 4 ]; then continue; fi
            run "$program" "$name" "$contacts"
            echo "$took" >> "$work/times.$program"
            if [ "$program" = least_file ]; then
                ours=$verdict
                case $ours in yes | no) ;; *) echo "$name: least_file says '$ours'"; disagreements=$((disagreements + 1)) ;; esac
            elif [ "$verdict" != "$ours" ]; then
                echo "$name: least_file says '$ours', $program says '$verdict'"
                disagreements=$((disagreements + 1))
            fi
        done
    done
}

# The median of a program's runs in milliseconds.
millis() {
    if [ -f "$work/times.$1" ]; then awk "BEGIN { printf \"%.2f\", $(median "$work/times.$1") / 1000 }"; else echo -; fi
}

# Ours over the quickest of the given peers', each program's runs summed up by the given function.
ratio() {
    local summary=$1 peer quicker= micros
    shift
    for peer in "$@"; do
        [ -f "$work/times.$peer" ] || continue
        micros=$("$summary" "$work/times.$peer")
        if [ -z "$quicker" ] || [ "$micros" -lt "$quicker" ]; then quicker=$micros; fi
    done
    if [ -z "$quicker" ]; then echo -; else awk "BEGIN { printf \"%.2f\", $("$summary" "$work/times.least_file") / $quicker }"; fi
}

# Notes a ratio for the goal of its kind.
note_ratio() { [ "$2" = - ] || echo "$1 $2" >> "$work/ratios"; }

# Whether all texts of a kind keep a limit.
goal() {
    awk -v name="$1" -v limit="$3" -v kind="$2" -v whom="$4" '
        $1 == kind { n++; if ($2 <= limit) met++; if ($2 > worst) worst = $2 }
        END { if (n) printf "%s: at most %s times %s: %s (%d of %d texts, worst %.2f)\n", name, limit, whom, met == n ? "met" : "not met", met, n, worst }
    ' "$work/ratios"
}

agreed() {
    if [ "$disagreements" -gt 0 ]; then
        echo "$disagreements disagreements"
        exit 1
    fi
    echo "all answers agree"
}
