#!/usr/bin/env bash
# Prints the milliseconds of `letting migrate` on a file of the first version with so many leases of ten branches (10,000 where not given)
# and ten months charged to them, beside what Python's sqlite3 takes for the same statements on a copy of the file that it has open. Start
# is `letting migrate` on a file that is migrated, which is refused once the version was read. Check is `letting recover` on a file of the
# first version without an open run, which is what a migration does before it changes anything: start, loading and audit. Checked and made
# are the same two without their start, within a program that has the file open (`runs`). Each figure is the least of five, of migrations
# each on a copy of its own. That all leave the same tables and rows is checked.
set -eu
cd "$(dirname "$0")/.."
. bench/timed.sh
bench/program.sh runs nothing

# first_line TEXT: the program has to have printed this in its first line.
first_line() {
    if [ "$(head -n 1 "$work/said")" != "$1" ]; then
        echo "printed in place of $1: $(cat "$work/said")" >&2
        return 1
    fi
}

# The file of the first version in place of this one.
copy() {
    rm -f "$1" "$1"-*
    cp "$work/first" "$1"
}

milliseconds() {
    awk '{ printf "%.1f\n", $1 / 1000 }'
}

least() {
    sort -n "$work/$1" | head -n 1
}

printf '%8s %8s %12s %12s %12s %12s %12s %12s\n' leases charges start check migrate checked made python
for leases in ${*:-10000}; do
    rm -f "$work"/*
    bench/migration.py make "$work/first" "$leases"
    for _ in 1 2 3 4 5; do
        copy "$work/letting"
        time_of 0 recover --file "$work/letting" >>"$work/check"
        first_line recovered
        time_of 0 migrate --file "$work/letting" >>"$work/migrate"
        first_line migrated
        time_of 5 migrate --file "$work/letting" >>"$work/start"
        first_line 'refused 16 2'
        copy "$work/within"
        bench/program.sh runs check "$work/within" | milliseconds >>"$work/checked"
        bench/program.sh runs migrate "$work/within" | milliseconds >>"$work/made"
        copy "$work/python"
        bench/migration.py python "$work/python" >>"$work/by_python"
        bench/migration.py same "$work/letting" "$work/python"
        bench/migration.py same "$work/within" "$work/python"
    done
    printf '%8s %8s %12s %12s %12s %12s %12s %12s\n' "$leases" $((leases * 10)) "$(least start)" "$(least check)" \
        "$(least migrate)" "$(least checked)" "$(least made)" "$(least by_python)"
done
