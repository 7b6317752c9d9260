#!/usr/bin/env bash
# Prints the microseconds of an owner's statement, of what a branch is owed, and of the early end of a lease, by the program itself on a file
# with so many leases (1,000 and 10,000 where not given), a hundred of each owner, and with 1, 10 and 120 months charged; beside what Python's
# sqlite3 takes for the same looks and rows. The program's time is that of a batch of many such lines less that of an empty batch. Each is the
# least of five.
set -eu
cd "$(dirname "$0")/.."
. bench/timed.sh

# least_of COUNT LINES: the least milliseconds of so many batches of these lines, each on a copy of the file.
least_of() {
    for _ in $(seq "$1"); do
        rm -f "$work/copy"*
        cp "$work/office" "$work/copy"
        time_of 0 batch --file "$work/copy" <"$2"
    done | sort -n | head -n 1
}

# each WHAT LEASES MONTHS TIMES: the microseconds of one of these lines.
each() {
    bench/reports.py "$1" "$2" "$3" "$4" >"$work/lines"
    awk -v all="$(least_of 5 "$work/lines")" -v start="$start" 'END { printf "%.1f", (all - start) * 1000 / NR }' "$work/lines"
}

# told LEASES MONTHS WHAT TIMES: a line of the table.
told() {
    local letting python
    letting=$(each "$3" "$1" "$2" "$4")
    python=$(awk -v what="$3" '$1 == what && (!least || $2 < least) { least = $2 } END { print least }' "$work/python")
    awk -v leases="$1" -v months="$2" -v what="$3" -v one="$letting" -v other="$python" \
        'BEGIN { printf "%8s %8s %-8s %10s %10s %8.2f\n", leases, months, what, one, other, one / other }'
}

printf '%8s %8s %-8s %10s %10s %8s\n' leases months what letting python ratio
for leases in ${*:-1000 10000}; do
    for months in 1 10 120; do
        rm -f "$work"/*
        ./letting init --file "$work/office" --first 2025-01 >"$work/said"
        bench/reports.py lines "$leases" "$months" | ./letting batch --file "$work/office" >"$work/said"
        for _ in 1 2 3 4 5; do
            rm -f "$work/other"*
            bench/reports.py python "$leases" "$months" "$work/other" >>"$work/python"
        done
        start=$(least_of 5 /dev/null)
        told "$leases" "$months" owner 20
        told "$leases" "$months" arrears $((600000 / leases))
        [ "$months" != 1 ] || told "$leases" "$months" end 500
    done
done
