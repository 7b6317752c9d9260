#!/usr/bin/env bash
# Prints the microseconds a call of each look-up, each change and each addition of crates/dh_tables, by the texts that they run,
# among so many rows a table (2,000, 16,000 and 128,000 where not given; of runs never more than 2,000, as each has a month of
# its own). A thousand records are looked for, changed or added, or as many as a second allows; the least of three such rounds
# counts. The tables are in a file that Python's sqlite3 makes; a transaction of changes is rolled back, and its end isn't timed.
set -eu
cd "$(dirname "$0")"
./program.sh tables nothing
work=$(mktemp -d)
trap 'rm -rf "$work"' EXIT
sizes=${*:-2000 16000 128000}
files=()
for rows in $sizes; do
    ./tables.py make "$work/file" "$rows" "$rows"
    ./program.sh tables calls "$work/file" >"$work/$rows.times"
    files+=("$work/$rows.times")
    rm -f "$work"/file*
done
printf '%-20s' call
printf '%10s' $sizes
echo
paste -d' ' "${files[@]}" | awk '{ printf "%-20s", $1; for (i = 2; i <= NF; i += 2) printf "%10s", $i; print "" }'
