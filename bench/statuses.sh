#!/usr/bin/env bash
# Runs the program once for each exit status, with its words as a shell gives them, and compares its output and its status with what is
# wanted: what no clause says is how `main` gets its words and ends. Then it tries what one process alone can't: a second one on the same
# file, another user's folders, and a full disk. Prints a line a run, and ends with 0 if all are as wanted. What the machine doesn't let it
# try is skipped, and named.
set -u
cd "$(dirname "$0")/.."
./letting batch </dev/null
top=$PWD
work=$(mktemp -d)
trap 'umount "$work/disk" 2>/dev/null; rm -rf "$work"' EXIT
# Another user runs it too.
chmod 755 "$work"
program=$work/letting
cp crates/dh_desk/out/dh_desk "$program"
cd "$work" || exit 1
wrong=0
# Who runs the program: the words that stand before it.
as=()

# run STATUS OUTPUT WORD..: standard input is what the function is given.
run() {
    local status=$1 output=$2 got ended
    shift 2
    got=$("${as[@]}" "$program" "$@")
    ended=$?
    if [ "$ended" = "$status" ] && [ "$got" = "$output" ]; then
        echo "as wanted: $status: $*"
    else
        echo "DIFFERS: $*: ended with $ended and not $status; printed: $got"
        wrong=$((wrong + 1))
    fi
}

# closed STATUS WORD..: the same with a standard output that is closed.
closed() {
    local status=$1 ended
    shift
    "$program" "$@" >&-
    ended=$?
    if [ "$ended" = "$status" ]; then
        echo "as wanted: $status: $* >&-"
    else
        echo "DIFFERS: $* >&-: ended with $ended and not $status"
        wrong=$((wrong + 1))
    fi
}

# same WHAT WANTED GOT: what a step came to.
same() {
    if [ "$3" = "$2" ]; then
        echo "as wanted: $1"
    else
        echo "DIFFERS: $1: $3, and not $2"
        wrong=$((wrong + 1))
    fi
}

# sums FILE..: what the files hold.
sums() {
    sha256sum "$@"
}

run 0 'created 2025-01' init --file office.db --first 2025-01 </dev/null
run 0 $'1 ok\n2 ok' batch --file office.db <<<$'branch,B001,1 Main St,Leeds,LS1 1AA\nstaff,S1,Ann Lee,Assistant,B001'
run 1 $'1 already\n2 refused 1' batch --file office.db <<<$'branch,B001,1 Main St,Leeds,LS1 1AA\nbranch,B001,9 Main St,Leeds,LS1 1AA'
run 1 'refused 14' report --file office.db run 2025-01 </dev/null
run 2 'bad field 3' report --file office.db vacant 2025-02-30 </dev/null
run 2 'bad first' batch --first 2025-13 </dev/null
run 2 'error: invalid UTF-8 was detected in one or more arguments' batch $'\xff' </dev/null
run 3 'fault 22' report --file nothing.db branches </dev/null
run 4 '1 opened 2025-01' batch --file office.db <<<'open,R-1,2025-01'
run 4 'B001     Leeds' report --file office.db branches </dev/null
run 1 'refused 10 2025-01' run --file office.db --key R-1 --month 2025-01 </dev/null
run 0 'recovered' recover --file office.db </dev/null
run 0 'already posted 2025-01 0 0.00' run --file office.db --key R-1 --month 2025-01 --batches 1 </dev/null
run 5 'refused 16 2' migrate --file office.db </dev/null

# Files of both versions that SQLite made anew.
vacuumed() {
    python3 -c "import sqlite3, sys; sqlite3.connect(sys.argv[1]).execute('VACUUM')" "$1"
}
vacuumed office.db
run 0 'B001     Leeds' report --file office.db branches </dev/null
"$top"/bench/migration.py make first.db 20
vacuumed first.db
run 0 'recovered' recover --file first.db </dev/null
run 5 'refused 16 1' report --file first.db branches </dev/null
run 0 'migrated' migrate --file first.db </dev/null
vacuumed first.db
run 0 'recovered' recover --file first.db </dev/null

python3 -c "import sqlite3; c = sqlite3.connect('office.db'); c.execute('UPDATE meta SET version = 7'); c.commit()"
run 5 'refused 16 7' recover --file office.db </dev/null
closed 2 frob
closed 2 batch $'\xff'
closed 2 init --file office.db --first BAD
closed 3 --help
closed 3 report --file nothing.db branches

# A second process on a file that another holds, which goes on afterwards.
run 0 'created 2025-01' init --file held.db --first 2025-01 </dev/null
coproc first { exec "$program" batch --file held.db; }
first_id=$first_PID
echo 'branch,B001,1 Main St,Leeds,LS1 1AA' >&"${first[1]}"
read -r reply <&"${first[0]}"
same 'the first process' '1 ok' "$reply"
before=$(sums held.db held.db-wal)
run 3 'fault 22' init --file held.db --first 2025-01 </dev/null
run 3 'fault 22' batch --file held.db <<<'branch,B002,5 Oak Rd,York,YO1 1CC'
run 3 'fault 22' run --file held.db --key R-1 --month 2025-01 </dev/null
run 3 'fault 22' recover --file held.db </dev/null
run 3 'fault 22' report --file held.db branches </dev/null
run 3 'fault 22' serve --file held.db --port 0 --count 1 </dev/null
same 'the file that is held' "$before" "$(sums held.db held.db-wal)"
echo 'show,branches' >&"${first[1]}"
exec {first[1]}>&-
same 'the first process goes on' $'2 shown 1\nB001     Leeds' "$(cat <&"${first[0]}")"
wait "$first_id"
same 'its status' 0 $?
run 0 'B001     Leeds' report --file held.db branches </dev/null

# Folders and files without a permission. Root may do all, so as root the program is run by another user.
mkdir shut
run 0 'created 2025-01' init --file shut/office.db --first 2025-01 </dev/null
before=$(sums shut/office.db)
if [ "$(id -u)" = 0 ]; then
    as=(setpriv --reuid=65534 --regid=65534 --clear-groups)
fi
if "${as[@]}" true 2>/dev/null; then
    rm shut/office.db-wal
    chmod 666 shut/office.db
    chmod 555 shut
    run 3 'fault 22' init --file shut/new.db --first 2025-01 </dev/null
    run 3 'fault 22' report --file shut/office.db branches </dev/null
    run 3 'fault 22' recover --file shut/office.db </dev/null
    same 'a folder that may not be written' office.db "$(ls shut)"
    chmod 444 shut
    run 3 'fault 22' init --file shut/new.db --first 2025-01 </dev/null
    run 3 'fault 22' report --file shut/office.db branches </dev/null
    chmod 777 shut
    chmod 444 shut/office.db
    run 3 'fault 22' batch --file shut/office.db <<<'branch,B001,1 Main St,Leeds,LS1 1AA'
    chmod 000 shut/office.db
    run 3 'fault 22' report --file shut/office.db branches </dev/null
    chmod 666 shut/office.db
    same 'a file that may not be written' "$before" "$(sums shut/office.db)"
    run 0 '' report --file shut/office.db branches </dev/null
else
    echo 'skipped: folders and files without a permission, since the program can not be run by another user'
fi
as=()

# A disk that is full: as a file is made, and as a line is answered.
mkdir disk
if mount -t tmpfs -o size=16m letting disk 2>/dev/null; then
    head -c 16m /dev/zero >disk/filler 2>/dev/null
    run 3 'fault 22' init --file disk/office.db --first 2025-01 </dev/null
    same 'a disk that was full' filler "$(ls disk)"
    rm disk/filler
    run 0 'created 2025-01' init --file disk/office.db --first 2025-01 </dev/null
    run 0 '1 ok' batch --file disk/office.db <<<'branch,B001,1 Main St,Leeds,LS1 1AA'
    before=$(sums disk/office.db)
    head -c 16m /dev/zero >disk/filler 2>/dev/null
    run 3 '1 fault 22' batch --file disk/office.db <<<'branch,B002,5 Oak Rd,York,YO1 1CC'
    same 'the file on a full disk' "$before" "$(sums disk/office.db)"
    rm disk/filler
    run 0 'B001     Leeds' report --file disk/office.db branches </dev/null
    run 0 '1 ok' batch --file disk/office.db <<<'branch,B002,5 Oak Rd,York,YO1 1CC'
else
    echo 'skipped: a full disk, since no small one can be mounted'
fi
[ "$wrong" = 0 ]
