#!/usr/bin/env bash
# Prints the milliseconds of the program itself on a file with so many due leases of ten branches (100, 1,000 and 10,000 where not given):
# of a report before any run, which is little but its start; of the first month's run, beside what Python's sqlite3 takes for the same
# batches on a file that it has open; of a recovery from the middle of that run; and of a report once ten months are charged, beside what
# Python takes to open that file, check it, fetch its rows and add up its charges. Each is the least of five.
set -eu
cd "$(dirname "$0")/.."
. bench/timed.sh

milliseconds() {
    awk '{ printf "%.1f\n", $1 / 1000 }'
}

# An office made anew, with a line in a file of times for each figure.
time_office() {
    local file=$work/office month
    rm -f "$file"* "$work/cut"* "$work/python"*
    ./letting init --file "$file" --first 2025-01 >"$work/said"
    bench/runs.py leases "$1" | ./letting batch --file "$file" >"$work/said"
    cp "$file" "$work/cut"
    time_of 0 report --file "$file" branches >>"$work/times.start"
    time_of 0 run --file "$file" --key R-0 --month 2025-01 >>"$work/times.run"
    bench/runs.py python "$1" "$work/python" | milliseconds >>"$work/times.python_run"
    ./letting run --file "$work/cut" --key R-0 --month 2025-01 --batches "$(bench/runs.py middle "$1")" >"$work/said" || [ $? = 4 ]
    time_of 0 recover --file "$work/cut" >>"$work/times.recovery"
    for month in 02 03 04 05 06 07 08 09 10; do
        ./letting run --file "$file" --key "R-$month" --month "2025-$month" >"$work/said"
    done
    time_of 0 report --file "$file" branches >>"$work/times.full"
    bench/runs.py open "$file" | milliseconds >>"$work/times.python_open"
}

least() {
    sort -n "$work/times.$1" | head -n 1
}

printf '%8s %12s %12s %12s %12s %12s %12s\n' leases start run python recovery 'start full' python
for leases in ${*:-100 1000 10000}; do
    for _ in 1 2 3 4 5; do
        time_office "$leases"
    done
    printf '%8s %12s %12s %12s %12s %12s %12s\n' "$leases" "$(least start)" "$(least run)" "$(least python_run)" \
        "$(least recovery)" "$(least full)" "$(least python_open)"
    rm -f "$work"/*
done
