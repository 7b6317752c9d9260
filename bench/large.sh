#!/usr/bin/env bash
# Large files, which take too long for the gate: what the program prints on them, and the rows that it leaves.
#
#     bench/large.sh [PROGRAM [DUES [LEASES]]]     ./letting, 70,000 and 11,000 where not given
#
# What is checked:
# - A rent run of 70,000 dues of 700.00 in one branch, closed: its reply (49,000,000.00), the reply to the same run again, each kind of report,
#   and all rows. The same run opened with `--batches`, posted further and recovered gives the same rows.
# - A file of the second version with 11,000 leases, 110,000 charges and their receipts: each kind of report, and the run of the next month.
# - A file of the first version with as many: `migrate` prints `migrated`, each balance and each row is as before by Python's sqlite3, the
#   fees are 0, and the reports are right.
# Each report ends with 0, so the file breaks no rule of the audit. What is wanted is reckoned by bench/large.py, and never taken from the
# program or from a sum of a database. The files are made by Python's sqlite3, and only the runs and the migration are the program's.
#
# Prints the seconds of each part, each check that differs, and then how many there were; ends with 0 if none differs.
set -eu
cd "$(dirname "$0")/.."
[ $# != 0 ] || ./letting batch </dev/null
program=$(readlink -e "${1:-crates/dh_desk/out/dh_desk}")
work=$(mktemp -d)
trap 'rm -rf "$work"' EXIT
bench/large.py "$program" "$work" "${2:-70000}" "${3:-11000}"
