#!/usr/bin/env bash
# Times an audit of books in memory with so many leases (1,000, 3,000 and 10,000 where not given), each with ten charges and
# ten receipts. The time is the least of five, without that of building the books.
set -eu
cd "$(dirname "$0")"
printf '%9s %9s %9s %10s %10s\n' leases charges receipts seconds "us/lease"
./program.sh large_books audit ${*:-1000 3000 10000}
