#!/usr/bin/env bash
# Times `letting batch` in memory over so many `branch` lines (1,000, 4,000 and 16,000 where not given), beside a Python script that
# answers the same lines by its own sqlite3, a transaction a line. A time is the least of three, in milliseconds.
set -eu
cd "$(dirname "$0")/.."
./letting batch </dev/null
input=$(mktemp)
trap 'rm -f "$input"' EXIT

# The least time of three of the command over the input.
least() {
    local least=
    for _ in 1 2 3; do
        local start end
        start=$(date +%s%N)
        "$@" <"$input" >/dev/null
        end=$(date +%s%N)
        local time=$(((end - start) / 1000000))
        [ -n "$least" ] && [ "$least" -le "$time" ] || least=$time
    done
    echo "$least"
}

printf '%10s %10s %10s\n' lines letting sqlite3
for lines in ${*:-1000 4000 16000}; do
    bench/commands.py branches "$lines" >"$input"
    printf '%10s %10s %10s\n' "$lines" "$(least ./letting batch)" "$(least bench/commands.py answer)"
done
