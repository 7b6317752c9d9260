#!/usr/bin/env bash
# Times the lines of an office's day (1,000, 4,000 and 16,000 where not given), in memory and on a file, beside a Python script that does
# the same job by its own sqlite3, a commit a command. A time is the least of five, in milliseconds. That both answer alike is checked.
set -eu
cd "$(dirname "$0")"
./program.sh lines nothing
work=$(mktemp -d)
trap 'rm -rf "$work"' EXIT

# The least time of five of the command over the lines, whose answers go to the file of this name.
least() {
    local answers=$1 least= start end time
    shift
    for _ in 1 2 3 4 5; do
        rm -f "$work"/file*
        start=$(date +%s%N)
        "$@" <"$work/lines" >"$work/$answers"
        end=$(date +%s%N)
        time=$(((end - start) / 1000000))
        [ -n "$least" ] && [ "$least" -le "$time" ] || least=$time
    done
    echo "$least"
}

printf '%-8s %8s %10s %10s %8s\n' place lines letting python ratio
for place in memory file; do
    path=()
    [ "$place" = memory ] || path=("$work/file")
    for lines in ${*:-1000 4000 16000}; do
        ./lines.py lines "$lines" >"$work/lines"
        letting=$(least letting out/lines "${path[@]}")
        python=$(least python ./lines.py answer "${path[@]}")
        cmp "$work/letting" "$work/python"
        printf '%-8s %8s %10s %10s %8s\n' "$place" "$lines" "$letting" "$python" "$(awk "BEGIN { printf \"%.2f\", $letting / $python }")"
    done
done
