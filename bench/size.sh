#!/usr/bin/env bash
# How large an office may be, and how fast a call is then: a row for each office.
#
#     bench/size.sh [-d FOLDER] [PROGRAM [YEARS PROPERTIES..]]
#
# Where they are not given, FOLDER is the working directory, PROGRAM is ./letting, and there are three offices with 100, 500 and 2,000
# properties, each let without a gap for 10 years. All files are made in a new folder in FOLDER, which goes when the script ends. FOLDER has to be
# on a disk, as an office's file is.
#
# The columns are:
# - How many leases, charges and receipts the file has, and how large it is. It is of the second version and made by Python's sqlite3, with
#   the runs of all months, nearly all rents paid, and a deposit for each lease that has begun.
# - The seconds of `report arrears B0` and of a `report statement`, the least and the greatest of five calls each: little but the start, which
#   loads and audits the whole file. Behind them, the most memory of these ten calls. One behind `<` is a bound: the system tells no
#   less than what the process has that begins the call.
# - The seconds of the next month's `run`, each a call on a copy of its own, the least of five.
# - What Python's sqlite3 takes once it is started: to open the file, for its integrity_check and foreign_key_check, to fetch all rows and
#   to add up the charges of each branch and month (`runs.py open`), the least of five.
# - The milliseconds of a `rent` line, each of which is a commit: the mean of 1,000 of a batch that has answered its first, the least of five
#   batches on copies of their own. Beside it, those of one fsync of a file there with 4 KB more at its end, the mean of 200.
#
# Each call has to end with 0, and to print what bench/size.py reckons. Where one differs, the difference is printed in the place of the
# row. Ends with 0 if none does.
set -eu

# there PATH: the whole path of what has to be there.
there() {
    readlink -e -- "$1" || {
        echo "size.sh: there is no $1" >&2
        return 2
    }
}

folder=$PWD
if [ "${1-}" = -d ]; then
    folder=$(there "${2-}")
    shift 2
fi
program=${1:+$(there "$1")}
years=${2:-10}
sizes=("${@:3}")
[ ${#sizes[@]} != 0 ] || sizes=(100 500 2000)
cd "$(dirname "$0")/.."
if [ -z "$program" ]; then
    ./letting batch </dev/null
    program=$PWD/crates/dh_desk/out/dh_desk
fi
work=$(mktemp -d "$folder/size-XXXXXX")
trap 'rm -rf "$work"' EXIT
# Nothing is left beside the scripts either.
export PYTHONDONTWRITEBYTECODE=1
bench/size.py "$program" "$work" "$years" "${sizes[@]}"
