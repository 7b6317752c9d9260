#!/usr/bin/env bash
# What `init` does beside others and on a full disk, and what a path does that comes to name another file:
#
#     bench/init.sh [PROGRAM [ROUNDS [PART..]]]     the program, which is built where it is not given; 200 and all parts where not given
#
# - Four `init` at once on one path, in each round; two of which one is held at each of its calls of the system in turn, and the other at its
#   first write to the disk. One makes the agency each time, and the others leave it.
# - Each call of the system that an `init` makes fails in turn, and disks of 56 sizes. What answers a fault leaves nothing, or the empty
#   file that was there. With room a second `init` works.
# - An `init` that is killed at each of its writes. What is left is an agency, or a path where `init` works, if need be behind the removal
#   that docs/USER.md names.
# - Things that stand at the path or at the log's: links, folders, a byte, logs.
# - A file that is removed or replaced as `report` opens it, and in each round one that is moved, removed or replaced under `batch` and `serve`.
# - A `serve` that is killed under load and started again, in each round. Each answered receipt is there, and none twice.
# - `serve` with no descriptor left for a connection.
#
# Prints each check that came otherwise, and how many there were. Ends with 0 if none did. Asks for strace and, for the disks, for root.
set -eu
cd "$(dirname "$0")/.."
if [ -n "${1-}" ]; then
    program=$(realpath "$1")
else
    ./letting batch </dev/null
    program=$PWD/crates/dh_desk/out/dh_desk
fi
work=$(mktemp -d)
trap 'rm -rf "$work"' EXIT
# The disks are mounted where nobody else sees them.
alone=(unshare --mount --propagation private)
"${alone[@]}" true 2>/dev/null || alone=()
"${alone[@]}" bench/init.py "$program" "$work" "${2:-200}" "${@:3}"
