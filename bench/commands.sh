#!/usr/bin/env bash
# Prints the microseconds of commands of each daily kind, and of a statement, over so many rows a table (1,000, 10,000 and 100,000 where not
# given), in memory and on a file. Five hundred lines of each kind are told to an agency that was told the rows before; a time is
# the mean of these, reading of the line included.
set -eu
cd "$(dirname "$0")"
./program.sh commands nothing </dev/null
work=$(mktemp -d)
trap 'rm -rf "$work"' EXIT
sizes=${*:-1000 10000 100000}
for place in memory file; do
    files=()
    for rows in $sizes; do
        ./commands.py lines "$rows" >"$work/lines"
        if [ "$place" = memory ]; then
            ./program.sh commands <"$work/lines" >"$work/$rows.times"
        else
            ./program.sh commands "$work/file" <"$work/lines" >"$work/$rows.times"
        fi
        files+=("$work/$rows.times")
        rm -f "$work"/file*
    done
    printf '%-20s' "$place"
    printf '%10s' $sizes
    echo
    paste -d' ' "${files[@]}" | awk '{ printf "%-20s", $1; for (i = 2; i <= NF; i += 2) printf "%10s", $i; print "" }'
done
