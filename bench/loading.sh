#!/usr/bin/env bash
# Times loading tables with so many leases (10,000 where not given) and ten times as many charges into books, in memory and
# from a file, beside what Python's sqlite3 takes to fetch the same rows. Each other table has as many rows as there are leases,
# but of runs there are 2,000 at most. A time is the least of five, in seconds. The last row is that of opening the file.
set -eu
cd "$(dirname "$0")"
./program.sh tables nothing
leases=${1:-10000}
work=$(mktemp -d)
trap 'rm -rf "$work"' EXIT
./tables.py make "$work/file" "$leases" $((leases * 10))
./tables.py fetch "$work/file" >"$work/python"
./program.sh tables loading "$work/file" >"$work/ours"
printf '%-10s %10s %10s %8s\n' from letting sqlite3 ratio
paste -d' ' "$work/ours" "$work/python" | awk '{ printf "%-10s %10s %10s %8.2f\n", $1, $2, $4, $2 / $4 }'
