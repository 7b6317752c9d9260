#!/usr/bin/env bash
# Refuses growths of memory in the program as `./letting` builds it: growth n alone, and growth n with each later one, for n = FIRST,
# FIRST + STRIDE and so on, until none is met.
#
#     bench/refused_memory.sh [STRIDE [FIRST [JOB..]]]     100, 1 and each job where not given; bench/refused_memory.py names the jobs
#
# The jobs are `init`, `batch` in memory and on a file (a line of each kind, refusals, each question: bench/refused_memory/day.csv), `run`,
# whole and in parts, `recover` of either version, `migrate`, each `report`, `serve`, and words that are bad. What is checked:
# - The answer is the right one, or its first lines and exactly `fault 21`, with status 3. In a batch the fault has the number of the record
#   in which the growth was asked for. `serve` answers each connection rightly, with 503 or not at all. Bad words end with 2.
# - The file that is left is recovered to the rows before that record or behind it. Python computes these from the lines, and reads the file
#   by its own sqlite3. What `init` left is either recovered or no office's, so that `init` makes it one.
# - What takes no memory answers where each growth is refused: the line `n fault 21` and the bytes of a 503 stand whole, and the store is
#   handed back and closed. While a reply or a report is written, no growth is asked for.
#
# What can't be seen from outside: a batch and `serve` end at the first fault of the agency, so no call comes behind it. That such a call
# answers 23 and touches nothing is the clause `stopped` of `Agency::step`, `resume` and `show` (crates/dh_agency), and that each fault
# stops the agency is `stops`. `Agency::into_store` hands the connection back as it is, and which tables `recover` finds there `halted` says
# of each of these calls. Nor is it seen that `read` of a code, a number, an amount, a day or a month, `Display`, `Day::plus_months` and
# `balance` take no memory, since other growths lie between: none of them is given an allocator.
#
# The program forks at each growth, and the child is refused it (bench/refused_memory/refuse.c). For `serve` it is begun anew instead, which
# takes longer, so the job `serve, no port` has what comes before the listener. Prints two lines a job, and ends with 0 if all were so. Asks
# for a C compiler. Each run has a folder of its own.
set -eu
cd "$(dirname "$0")/.."
./letting batch </dev/null
program=$PWD/crates/dh_desk/out/dh_desk
work=$(mktemp -d)
trap 'rm -rf "$work"' EXIT
cc -shared -fPIC -O1 -o "$work/refuse.so" bench/refused_memory/refuse.c
bench/refused_memory.py "$program" "$work" "${1:-100}" "${2:-1}" "${@:3}"
