#!/usr/bin/env bash
# Prints the milliseconds of calls of the crate `sqlite` that take most of what the program does, by themselves, on a file with so many leases
# (10,000 where not given) and ten charged months; beside those of Python's sqlite3. Opening is what a start has to do first, which checks the
# trees and the references; bare is that of a file without its indexes for look-ups; rows are those of all tables; looks are what a branch of
# ten is owed from, four for each lease; indexes are those for look-ups made anew, as in a migration; charges are one for each lease, fifty by
# a statement and a transaction, as in a run. Each is the least of five.
set -eu
cd "$(dirname "$0")"
work=$(mktemp -d)
trap 'rm -rf "$work"' EXIT
./program.sh sqlite_alone nothing

copy() {
    rm -f "$work/copy"*
    cp "$work/$1" "$work/copy"
}

printf '%8s %-10s %10s %10s %8s\n' leases what sqlite python ratio
for leases in ${*:-10000}; do
    rm -f "$work"/*
    ./sqlite_alone.py make "$work/file" "$leases"
    cp "$work/file" "$work/bare"
    ./sqlite_alone.py bare "$work/bare"
    for round in 1 2 3 4 5; do
        copy file
        ./program.sh sqlite_alone "$work/copy" "$leases" >"$work/ours$round"
        copy bare
        ./program.sh sqlite_alone "$work/copy" | sed 's/opening/bare/' >>"$work/ours$round"
        copy file
        ./sqlite_alone.py python "$work/copy" "$leases" >"$work/other$round"
        copy bare
        ./sqlite_alone.py python "$work/copy" | sed 's/opening/bare/' >>"$work/other$round"
    done
    ./sqlite_alone.py least "$work"/ours? >"$work/ours"
    ./sqlite_alone.py least "$work"/other? >"$work/other"
    paste -d' ' "$work/ours" "$work/other" | awk -v leases="$leases" '{ printf "%8s %-10s %10s %10s %8.2f\n", leases, $1, $2, $4, $2 / $4 }'
done
