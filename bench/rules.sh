#!/usr/bin/env bash
# Times calls of the rules over the books of bench/audit.sh: the dues of a month, the properties that are vacant on a day, those
# that match a client, and the arrears of one of ten branches.
set -eu
cd "$(dirname "$0")"
printf '%9s %-9s %10s %10s\n' leases call seconds "us/lease"
./program.sh large_books rules ${*:-1000 3000 10000}
