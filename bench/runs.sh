#!/usr/bin/env bash
# Prints the milliseconds of a rent run over so many due leases of ten branches (100, 1,000 and 10,000 where not given), in memory and on
# a file, beside what Python's sqlite3 takes for the same batches; of a recovery from the middle of the run, beside what Python takes to
# check the part rows and to post the rest; and of taking a file to which ten months were charged. Each is the least of five.
set -euo pipefail
cd "$(dirname "$0")"
./program.sh commands nothing </dev/null
./program.sh runs nothing
work=$(mktemp -d)
trap 'rm -rf "$work"' EXIT

# least_of CALL..: the least milliseconds of five such calls, each of which prints its microseconds as the last word.
least_of() {
    for _ in 1 2 3 4 5; do
        rm -f "$work"/file*
        "$@"
    done | awk '{ print $NF }' | sort -n | head -n 1 | awk '{ printf "%.1f", $1 / 1000 }'
}

# run_in [FILE]: the run behind these lines.
run_in() {
    ./program.sh commands "$@" <"$work/run"
}

recovery() {
    ./program.sh commands "$work/file" <"$work/half" >"$work/nothing"
    ./program.sh runs recover "$work/file"
}

printf '%8s %12s %12s %12s %12s %12s %12s %12s\n' leases memory python file python recovery python attach
for leases in ${*:-100 1000 10000}; do
    ./runs.py lines "$leases" 0 >"$work/run"
    ./runs.py half "$leases" >"$work/half"
    ./runs.py lines "$leases" 9 >"$work/ten"
    ./program.sh commands "$work/full" <"$work/ten" >"$work/nothing"
    memory=$(least_of run_in)
    python_memory=$(least_of ./runs.py python "$leases")
    file=$(least_of run_in "$work/file")
    python_file=$(least_of ./runs.py python "$leases" "$work/file")
    recovery=$(least_of recovery)
    python_recovery=$(least_of ./runs.py recover "$leases" "$work/file")
    attach=$(least_of ./program.sh runs attach "$work/full")
    printf '%8s %12s %12s %12s %12s %12s %12s %12s\n' \
        "$leases" "$memory" "$python_memory" "$file" "$python_file" "$recovery" "$python_recovery" "$attach"
    rm -f "$work"/*
done
