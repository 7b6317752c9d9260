#!/usr/bin/env bash
# Prints how many requests a second `letting serve` answers, beside a server of Python's own http.server and sqlite3 that does the same
# job on a file, a commit a command: rents of 1,000 properties in turn, each another rent, and lists of the branches. Each kind has 1,000
# requests, a connection each; the least time of three rounds counts. That both answer each with the same 200 is checked.
set -eu
cd "$(dirname "$0")/.."
./letting batch </dev/null
work=$(mktemp -d)
trap 'rm -rf "$work"' EXIT
./letting init --file "$work/letting" --first 2025-01 >"$work/said"
bench/serve.py lines | ./letting batch --file "$work/letting" >"$work/said"
bench/serve.py time "$work/letting" "$work/python"
