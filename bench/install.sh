#!/usr/bin/env bash
# Tries `./letting --from` with a toolchain that proves nothing, and an office's set-up on clean folders: `./letting --install`,
# office/nightly-copy, office/letting-serve, office/renew, the man page and the units.
#
#     bench/install.sh     with the program that is built in this repository; it builds none, and tries the first alone where it is not built
#
# - An archive of libraries, and what is built over it; each archive that is refused, with its message.
# - Installing, and installing over a program that is serving; each call that fails, with its status and its message.
# - A copy of a file, of one that a `batch` holds, and of one that is written all the while; a copy that is put back.
# - Files of which no copy is kept: damaged, edited, of the first version, empty, with a journal, never at rest, beside a pipe.
# - A file that is busy, replaced or damaged as it is to be served; files with other tables or indexes that are renewed.
# - A file in a lower layer, as in a container's image, for root.
# - The units under a systemd of their own, for root: no file, stops, kills, reports, a file that is moved or replaced, copies.
#   It has namespaces of its own and a root that it can't write, but for folders in memory.
# - The lint of mandoc, man, systemd-analyze and shellcheck, where they are there.
#
# Prints each check that came otherwise, and how many there were. Ends with 0 if none did, and with 3 where the program is not built.
set -u
cd "$(dirname "$0")/.." || exit 1
top=$PWD
built=$top/crates/dh_desk/out/dh_desk
work=$(mktemp -d)
trap 'umount "$work/disk" "$work/layers/seen" 2>/dev/null; rm -rf "$work"' EXIT
# Another user runs some of it.
chmod 755 "$work"
cd "$work" || exit 1
checks=0
wrong=0
as=()

# same WHAT WANTED GOT
same() {
    checks=$((checks + 1))
    [ "$2" = "$3" ] && return
    wrong=$((wrong + 1))
    echo "DIFFERS: $1: $3, and not $2"
}

# call WORD..: its status and all that it prints, in one text.
call() {
    local said status
    said=$("${as[@]}" "$@" 2>&1 </dev/null)
    status=$?
    echo "$status $said"
}

# The names in a folder, hidden ones too.
listed() {
    find "$1" -mindepth 1 -printf '%P\n' | LC_ALL=C sort | paste -sd' '
}

# A toolchain whose prover and linker prove nothing, and note for which crate they were called.
made_up_kit() {
    mkdir -p kit/bin
    sed -n 's/^The toolchain `\(rattle-kit-[^`]*\)`.*/\1/p' "$top/README.md" >kit/KIT-ID
    cat >kit/bin/rt <<SH
#!/bin/sh
[ "\$1" = doc ] && echo $work/kit/START-HERE.md || cat $work/kit/KIT-ID
SH
    cat >kit/bin/rattle <<SH
#!/bin/sh
echo "\$3" >>$work/proved
while [ "\$1" != -o ]; do shift; done
case \$2 in *.rlib) mkdir "\$2" && touch "\$2/format" ;; *) touch "\$2" ;; esac
echo 'logic=proved '
SH
    cat >kit/bin/rattle-link <<'SH'
#!/bin/sh
while [ "$1" != -o ]; do shift; done
printf '#!/bin/sh\necho "$@"\n' >"$2" && chmod 755 "$2"
SH
    chmod 755 kit/bin/*
}

# A checkout with two libraries below the program.
made_up_checkout() {
    local name
    mkdir -p proving/crates/dh_{low,high,desk}/src proving/tools
    cp "$top/letting" "$top/README.md" "$top/.gitignore" proving
    cp "$top"/tools/{archive,build,crates}.py proving/tools
    printf 'dh_low:\ndh_high: dh_low\ndh_desk: dh_high\n' >proving/crates.txt
    for name in low/src/lib high/src/lib desk/src/main; do
        echo '//! Made up.' >"proving/crates/dh_$name.rt"
    done
    git init -q proving
    git -C proving add .
    git -C proving -c user.name=A -c user.email=a@b.c commit -qm 'Made up'
}

# archived TOOLCHAIN NAME: odd.tar.xz is an archive of this toolchain, or of none, with a file of this name, or a link if it ends in `link`.
archived() {
    python3 - "$@" <<'PY'
import sys, tarfile
with tarfile.open('odd.tar.xz', 'w:xz', pax_headers={'comment': sys.argv[1]} if sys.argv[1] else {}) as tar:
    entry = tarfile.TarInfo(sys.argv[2])
    if entry.name.endswith('link'):
        entry.type, entry.linkname = tarfile.SYMTYPE, 'format'
    tar.addfile(entry)
PY
}

# taking ARCHIVE: what `letting` says of it, without the lines of the build. What it proves is in `proved`.
taking() {
    : >proved
    call taking/letting --from "$1" | grep -v '^[0-9]* min: '
}

handed_on() {
    local PATH=$work/kit/bin:$PATH kit at name said trust
    made_up_kit
    made_up_checkout
    kit=$(cat kit/KIT-ID)
    mkdir older lacking
    printf '#!/bin/sh\necho 3.7.16\n' >older/python3
    printf '#!/bin/sh\nexit 127\n' >lacking/python3
    chmod 755 older/python3 lacking/python3
    # shellcheck disable=SC2016
    same 'an older Python' '3 letting: the first call needs Python 3.8 or later, and `python3` on the path is 3.7.16' \
        "$(PATH=$work/older:$PATH call proving/letting init there)"
    # shellcheck disable=SC2016
    same 'no Python' '3 letting: the first call needs Python 3.8 or later, and there is no `python3` on the path' \
        "$(PATH=$work/lacking:$PATH call proving/letting init there)"
    # shellcheck disable=SC2016
    same 'nothing to hand on' '1 not built of these sources: dh_low, dh_high; `./letting init ..` builds them' \
        "$(call proving/tools/archive.py make .)"
    same 'the first call' 'init there' "$(proving/letting init there 2>said)"
    same 'what it proves' 'dh_low dh_high dh_desk' "$(paste -sd' ' proved)"
    at=$(proving/tools/archive.py make .)
    same 'the archive' "letting-${kit%% *}-$(git -C proving rev-parse --short=8 HEAD).tar.xz" "$at"
    same 'its files' "$(printf 'crates/dh_%s/out/rlib/%s ' low built-of low dh_low.rlib/format high built-of high dh_high.rlib/format)" \
        "$(python3 -m tarfile -l "$at" | tr -s ' \n' ' ')"

    # Archives that are refused.
    git clone -q proving taking
    trust='letting: --from: the proofs of these libraries are trusted, as whoever made the archive checked them; '
    # shellcheck disable=SC2016
    trust+='`.ci/run`, or a first call in a clean clone, proves them here'
    same 'no archive named' '2 letting: --from takes one archive' "$(call taking/letting --from)"
    same 'two archives' '2 letting: --from takes one archive' "$(call taking/letting --from "$at" "$at")"
    same 'no such archive' '2 letting: --from: there is no file none' "$(taking none)"
    same 'a folder' '2 letting: --from: taking is no file that can be read' "$(taking taking)"
    same 'no archive' '3 letting: --from: kit/KIT-ID: not an lzma file' "$(taking kit/KIT-ID)"
    archived '' crates/dh_low/out/rlib/built-of
    same 'no toolchain' '3 letting: --from: odd.tar.xz does not name its toolchain' "$(taking odd.tar.xz)"
    archived 'made up' crates/dh_low/out/rlib/built-of
    same 'another toolchain' "3 letting: --from: odd.tar.xz is of the toolchain \`made up\`, and \`rt\` on the path is of \`$kit\`" \
        "$(taking odd.tar.xz)"
    for name in /etc/passwd ../passwd letting crates/dh_low/src/lib.rt crates/dh_other/out/rlib/built-of crates/dh_desk/out/rlib/built-of \
        crates/dh_low/out/rlib/{log,stamp,dh_high.rlib/format,dh_low.rlib/link,dh_low.rlib/../../../src/lib.rt}; do
        archived "$kit" "$name"
        same "a file at $name" "3 $trust
letting: --from: odd.tar.xz has $name, which is no file of a library" "$(taking odd.tar.xz)"
    done
    head -c -60 "$at" >cut.tar.xz
    said=$(taking cut.tar.xz)
    same 'a cut archive' "3 cut.tar.xz: Compressed file ended before the end-of-stream marker was reached" "${said%% *} ${said##*: --from: }"
    { head -c -60 "$at" && tail -c 60 "$at" | tr '\0' '\1'; } >damaged.tar.xz
    said=$(taking damaged.tar.xz)
    same 'a damaged archive' "3 damaged.tar.xz: Corrupt input data" "${said%% *} ${said##*: --from: }"
    echo 'made up' >kit/KIT-ID
    same 'another toolchain on the path' "3 letting: --from needs the toolchain \`$kit\`, and \`rt\` on the path is of \`made up\`" "$(taking "$at")"
    echo "$kit" >kit/KIT-ID
    same 'nothing was taken' '' "$(find taking/crates -path '*/out/rlib*')"
    same 'nothing was proved' '' "$(cat proved)"

    # What is proved over an archive.
    echo >>taking/crates/dh_high/src/lib.rt
    same 'a changed source' "0 $trust
letting: --from: 1 of 2 libraries were taken; left to prove: 1
letting: --from: the program is built" "$(taking "$at")"
    same 'what is proved then' 'dh_high dh_desk' "$(paste -sd' ' proved)"
    rm -rf taking
    git clone -q proving taking
    # Another call has the lock at first.
    mkdir taking/crates/dh_desk/out
    exec 8>taking/crates/dh_desk/out/letting.lock
    flock 8
    : >proved
    taking/letting --from "$at" >said 2>&1 8>&- &
    until grep -q waiting said 2>/dev/null || ! kill -0 $! 2>/dev/null; do sleep 0.1; done
    exec 8>&-
    wait $!
    same 'the same sources, behind another call' "0 letting: another call builds the program; waiting for it
$trust
letting: --from: 2 of 2 libraries were taken; left to prove: 0
letting: --from: the program is built" "$? $(grep -v '^[0-9]* min: ' said)"
    same 'what is proved over all' dh_desk "$(paste -sd' ' proved)"
    same 'once more' '0 letting: --from: the program is built' "$(taking "$at")"
    same 'a later call' '0 init there' "$(call taking/letting init there)"
    mkdir again
    same 'an archive of what was taken' "again/$at 0" "$(taking/tools/archive.py make again) $(cmp "$at" "again/$at"; echo $?)"
}

# A repository with no more than installing looks at. A `rt` is on the path that leaves a mark, and builds nothing.
mkdir -p repo/crates/dh_desk/src repo/crates/dh_desk/out bin
cp "$top/letting" "$top/crates.txt" "$top/README.md" repo
cp -r "$top/office" "$top/docs" repo
echo '//! The program.' >repo/crates/dh_desk/src/main.rt
printf '#!/bin/sh\ntouch %s/was_called\n' "$work" >bin/rt
chmod 755 bin/rt
PATH=$work/bin:$PATH
# shellcheck disable=SC2016
not_built='3 letting: --install: the program is not built of these sources; `./letting init ..` or `.ci/run` builds it'

parts='REFERENCE.md USER.md letting letting.1'
put='0 letting: put letting, letting.1, USER.md and REFERENCE.md into new'

installing() {
    local name
    mkdir new
    same 'not built' "$not_built" "$(call repo/letting --install new)"
    cp "$built" repo/crates/dh_desk/out/dh_desk
    touch -d '1 minute' repo/crates/dh_desk/src/main.rt
    same 'older than a source' "$not_built" "$(call repo/letting --install new)"
    touch -d '1 minute ago' repo/crates/dh_desk/src/main.rt repo/crates.txt
    touch repo/crates/dh_desk/out/dh_desk
    same 'nothing was built' '' "$(ls was_called 2>/dev/null)"
    same 'no folder named' '2 letting: --install takes one folder' "$(call repo/letting --install)"
    same 'two folders' '2 letting: --install takes one folder' "$(call repo/letting --install new new)"
    same 'no such folder' '2 letting: --install: there is no folder none' "$(call repo/letting --install none)"
    same 'a file' '2 letting: --install: there is no folder repo/letting' "$(call repo/letting --install repo/letting)"
    same 'the repository' '2 letting: --install: repo is the repository, with this script in it' \
        "$(call repo/letting --install repo)"
    same 'nothing was put anywhere' '' "$(listed new)"
    same 'installing' "$put" "$(umask 077; call repo/letting --install new)"
    same 'what is there' "$parts" "$(listed new)"
    same 'the modes' '644 644 755 644' "$(cd new && stat -c %a $parts | paste -sd' ')"
    same 'the program' 0 "$(cmp -s "$built" new/letting; echo $?)"
    for name in office/letting.1 docs/USER.md docs/REFERENCE.md; do
        same "$name" 0 "$(cmp -s "$top/$name" "new/${name##*/}"; echo $?)"
    done
    mkdir -p taken/letting
    same 'a folder in its place' '3 letting: --install: taken/letting is a folder' \
        "$(call repo/letting --install taken)"
    same 'that folder' letting "$(listed taken)"
}

# Folders that can't be written: by a user who may not, and on a disk that is full.
shut() {
    local said="3 letting: --install: shut can't be written"
    mkdir shut
    [ "$(id -u)" != 0 ] || as=(setpriv --reuid=65534 --regid=65534 --clear-groups)
    chmod 555 shut
    if "${as[@]}" true 2>/dev/null; then
        same 'a folder that may not be written' "$said" "$(call repo/letting --install shut)"
        same 'a folder of copies that may not be written' "3 nightly-copy: $work/shut can't be written" \
            "$(call repo/office/nightly-copy repo/crates.txt shut new/letting)"
        same 'that folder' '' "$(listed shut)"
    else
        echo 'not tried: another user'
    fi
    as=()
    mkdir disk
    if mount -t tmpfs -o size=1m letting disk 2>/dev/null; then
        said="3 letting: --install: disk can't be written"
        same 'a full disk' "$said" "$(call repo/letting --install disk)"
        same 'that disk' '' "$(listed disk)"
        umount disk
    else
        echo 'not tried: a full disk'
    fi
}

# A program that serves goes on as another is put in its place.
over_a_running_one() {
    local port before pid
    new/letting init --file served.db --first 2025-01 >said
    before=$(stat -c %i new/letting)
    new/letting serve --file served.db --port 0 --count 1 >served &
    pid=$!
    until grep -q port served 2>/dev/null || ! kill -0 $pid 2>/dev/null; do sleep 0.1; done
    port=$(sed -n 's/^port //p' served)
    same 'installing over it' "$put" "$(call repo/letting --install new)"
    same 'another file is there' no "$([ "$before" = "$(stat -c %i new/letting)" ] && echo yes || echo no)"
    same 'what is there then' "$parts" "$(listed new)"
    same 'the running one answers' 200 \
        "$(python3 -c 'import sys, urllib.request as r; print(r.urlopen(sys.argv[1], timeout=60).status)' \
            "http://127.0.0.1:$port/branches")"
    wait $pid
    same 'its status' 0 $?
}

copying() {
    local at want
    mkdir copies office
    new/letting init --file office/office.db --first 2025-01 >said
    new/letting batch --file office/office.db <"$top/examples/rent-run.csv" >said
    want=$(new/letting report --file office/office.db run 2025-01)
    at=$(new/nightly-copy office/office.db copies)
    same 'a copy' 0 $?
    same 'its name' yes "$([[ $at =~ ^$work/copies/[0-9]{4}-[0-9]{2}-[0-9]{2}-[0-9]{6}-office.db$ ]] && echo yes)"
    same 'nothing beside it' "${at##*/}" "$(listed copies)"
    same 'its mode' 600 "$(stat -c %a "$at")"
    new/letting batch --file office/office.db <<<'branch,B777,1 Main St,Leeds,LS1 1AA' >said
    # It is put back.
    mkdir away && mv office/office.db office/office.db-wal away && cp "$at" office/office.db
    same 'the copy put back' "0 $want" "$(call new/letting report --file office/office.db run 2025-01)"
    same 'a line behind the copy' '' "$(new/letting report --file office/office.db branches | grep B777)"
    rm copies/*
    same 'a copy named by a link, in a folder with a space' 0 \
        "$(ln -s office/office.db link; mkdir 'a b'; new/nightly-copy link 'a b' >said; echo $?)"
    same 'nothing to copy' '2 nightly-copy: there is no file none' "$(call new/nightly-copy none copies)"
    same 'nowhere to copy to' '2 nightly-copy: there is no folder none' "$(call new/nightly-copy link none)"
    same 'no program' '2 nightly-copy: there is no program none' "$(call new/nightly-copy link copies none)"
    same 'one word' '2 nightly-copy: the words are FILE DIR [LETTING]' "$(call new/nightly-copy link)"
    same 'no copies of these' '' "$(listed copies)"
}

# A copy while a `batch` holds the file, with lines in its log; and an open run.
while_it_is_held() {
    local at reply pid count
    new/letting init --file held.db --first 2025-01 >said
    coproc held { exec new/letting batch --file held.db; }
    # shellcheck disable=SC2154
    pid=$held_PID
    echo 'branch,B001,1 Main St,Leeds,LS1 1AA' >&"${held[1]}"
    read -r reply <&"${held[0]}"
    same 'the line before the copy' '1 ok' "$reply"
    at=$(new/nightly-copy held.db copies)
    same 'a copy of a held file' 0 $?
    same 'the copy has that line' '0 B001     Leeds' "$(call new/letting report --file "$at" branches)"
    echo 'open,R-1,2025-01' >&"${held[1]}"
    # shellcheck disable=SC1083,SC2093
    exec {held[1]}>&-
    same 'the batch goes on' '2 opened 2025-01' "$(cat <&"${held[0]}")"
    wait "$pid"
    rm -f copies/*
    at=$(new/nightly-copy held.db copies)
    same 'a copy with an open run' 0 $?
    same 'the run is open in it' '4 B001     Leeds' "$(call new/letting report --file "$at" branches)"
    new/letting recover --file held.db >said
    # Lines come all the while.
    for ((count = 10; count < 200; count++)); do
        echo "branch,C$count,1 Main St,Leeds,LS1 1AA"
        sleep 0.05
    done | new/letting batch --file held.db >said &
    sleep 2
    count=$(wc -l <said)
    rm -f copies/*
    at=$(new/nightly-copy held.db copies)
    same 'a copy between lines' 0 $?
    same 'it has what was answered before it' yes \
        "$([ "$(new/letting report --file "$at" branches | wc -l)" -gt "$count" ] && echo yes)"
    wait
    rm -f copies/*
}

# refused NAME WHY [STATUS]: no copy of this file is kept. What it says begins so.
refused() {
    local got want="${3-3} nightly-copy: no copy of $1: $2"
    got=$(call timeout 60 new/nightly-copy "$1" copies)
    same "$1" "$want" "${got:0:${#want}}"
    same "$1: one line" 1 "$(wc -l <<<"$got")"
    same "$1: nothing is left" '' "$(listed copies)"
}

unsound() {
    local said='letting says of the copy: '
    cp held.db cut.db && truncate -s 50000 cut.db
    refused cut.db "$said"
    cp held.db zeros.db && dd if=/dev/zero of=zeros.db bs=4096 seek=1 count=30 conv=notrunc status=none
    refused zeros.db "$said"
    : >empty.db
    refused empty.db "${said}fault 22 (status 3)"
    cp held.db edited.db
    python3 -c "import sqlite3; c = sqlite3.connect('edited.db'); c.execute('UPDATE meta SET version = 7'); c.commit()"
    refused edited.db "${said}refused 16 7 (status 5)"
    "$top"/bench/migration.py make first.db 20 >said
    refused first.db "${said}refused 16 1 (status 5)"
    cp held.db journal.db && echo journal >journal.db-journal
    refused journal.db "${said}fault 22 (status 3)"
    cp held.db busy.db
    # Each copying has a write behind it.
    mkdir odd
    printf '#!/bin/sh\n/bin/cp "$@" && echo >>busy.db\n' >odd/cp
    chmod 755 odd/cp
    PATH=$work/odd:$PATH refused busy.db 'it is being written all the time' 75
    # A call that is broken off.
    PATH=$work/odd:$PATH new/nightly-copy busy.db copies 2>/dev/null &
    sleep 1
    same 'a call that goes on' yes "$([[ $(listed copies) = .unfinished-* ]] && echo yes)"
    kill $!
    wait $! 2>/dev/null
    same 'a call that is broken off' '' "$(listed copies)"
    cp held.db beside.db
    mkfifo beside.db-wal
    refused beside.db "$work/beside.db-wal is no file"
    rm beside.db-wal && mkdir beside.db-wal
    refused beside.db "$work/beside.db-wal is no file"
    mkfifo pipe.db
    same 'a pipe' '2 nightly-copy: there is no file pipe.db' "$(call timeout 60 new/nightly-copy pipe.db copies)"
}

# Copies to a disk that is full, and two in one second.
crowded() {
    local begun=$SECONDS
    if mount -t tmpfs -o size=64k letting disk 2>/dev/null; then
        same 'a full disk for copies' '3 nightly-copy: no copy of held.db: cp: error writing: No space left on device' \
            "$(LC_ALL=C call new/nightly-copy held.db disk | sed "s/ '.*'//")"
        same 'that disk' '' "$(listed disk)"
        umount disk
        same 'it is told at once' yes "$([ $((SECONDS - begun)) -lt 5 ] && echo yes)"
        # There is room for the copy, and not for what a report writes.
        mount -t tmpfs -o size=4m letting disk
        printf '#!/bin/sh\necho fault 22\nexit 3\n' >failing
        chmod 755 failing
        same 'a disk with little room' "3 nightly-copy: no copy of held.db: there is no room for it in $work/disk" \
            "$(call new/nightly-copy held.db disk ./failing)"
        same 'that one' '' "$(listed disk)"
        umount disk
    else
        echo 'not tried: a copy to a full disk'
    fi
    new/nightly-copy held.db copies >first.said &
    new/nightly-copy held.db copies >said
    same 'two copies at once' 0 $?
    wait $!
    same 'both' '0 2' "$? $(find copies -name '*-held.db' | wc -l)"
    rm -f copies/*
}

# What letting-serve does until a minute has passed, which are three seconds here.
served() {
    local pid
    sed 's/^most_seconds=.*/most_seconds=3/' "$top/office/letting-serve" >new/letting-serve
    chmod 755 new/letting-serve
    same 'no words' '2 letting-serve: the words are FILE PORT COUNT [LETTING]' "$(call new/letting-serve)"
    same 'no file' '3 letting-serve: there is no file none' "$(call new/letting-serve none 0 1)"
    same 'bad words' '2 bad count' "$(call new/letting-serve held.db 0 0)"
    echo 'no database, but no empty file' >odd.db
    same 'a file that is none' '3 fault 22' "$(call new/letting-serve odd.db 0 1 | sed '/^fault 22$/d')"
    cp held.db waited.db
    # shellcheck disable=SC2034
    coproc waited { exec new/letting batch --file waited.db; }
    # shellcheck disable=SC2154
    pid=$waited_PID
    sleep 1
    same 'a file that is busy for long' '3 fault 22' "$(call new/letting-serve waited.db 0 1 | sed '/^fault 22$/d')"
    cp held.db other.db
    (sleep 1; mv other.db waited.db) &
    same 'a file that is replaced meanwhile' '3 fault 22
letting-serve: waited.db was moved, replaced or removed' "$(call new/letting-serve waited.db 0 1 | sed '/^fault 22$/d')"
    # shellcheck disable=SC1083,SC2093
    exec {waited[1]}>&-
    wait "$pid"
    mkdir noted
    echo 'another one' >noted/file
    same 'another file than the one before' \
        '3 letting-serve: held.db is another file than the one that was served; put yours there, and start the service' \
        "$(RUNTIME_DIRECTORY=$work/noted call new/letting-serve held.db 0 1)"
}

# renewed NAME: the file is none of ours, and has all its rows in the one that is made of it.
renewed() {
    local name=$1 table
    same "$name" '3 fault 22' "$(call new/letting report --file "$name" branches)"
    rm -f renewed.db*
    same "$name is renewed" '0 ' "$(call new/renew "$name" renewed.db)"
    same "$name: the new file" "0 $(new/letting report --file held.db branches)" "$(call new/letting report --file renewed.db branches)"
    for table in meta branch staff owner property client registration viewing inspection lease charge receipt run part branch_fee part_fee ending; do
        [ "$(sqlite3 held.db "SELECT * FROM $table")" = "$(sqlite3 renewed.db "SELECT * FROM $table")" ] || echo "DIFFERS: $name: $table"
    done
}

other_tables() {
    if ! type -P sqlite3 >/dev/null; then
        echo 'not tried: no sqlite3'
        return
    fi
    cp "$top/office/renew" new
    new/letting batch --file held.db <"$top/examples/rent-run.csv" >said
    # As a file of the second version was made before, with other indexes.
    cp held.db earlier.db
    sqlite3 earlier.db 'DROP INDEX property_owner; DROP INDEX property_branch; CREATE INDEX charge_month ON charge (month)'
    renewed earlier.db
    cp held.db added.db
    sqlite3 added.db 'ANALYZE; CREATE TABLE more (a)'
    renewed added.db
    python3 -c "
import sqlite3
with sqlite3.connect('held.db') as old, sqlite3.connect('dumped.db') as new:
    new.executescript('\n'.join(old.iterdump()))"
    renewed dumped.db
    same 'a name that is taken' '2 renew: renewed.db is there already' "$(call new/renew added.db renewed.db)"
    same 'a file of the first version' "3 renew: the rows can't be taken:" \
        "$(call new/renew first.db none.db | sed 's/\(taken:\).*/\1/')"
    cp held.db analysed.db
    sqlite3 analysed.db 'ANALYZE'
    same 'behind ANALYZE' '3 fault 22' "$(call new/letting report --file analysed.db branches)"
    sqlite3 analysed.db 'DROP TABLE sqlite_stat1'
    same 'without its table' 0 "$(new/letting report --file analysed.db branches >said; echo $?)"
    rm -f ./*-shm
}

# lint TOOL WORD..: the words end with 0 and say nothing.
lint() {
    if ! type -P "$1" >/dev/null; then
        echo "not tried: no $1"
        return
    fi
    same "lint by $1" '0 ' "$(call timeout 120 "${@:2}")"
}

linted() {
    local unit
    mkdir units
    for unit in letting.service letting-copy.service letting-copy.timer; do
        sed "s|/usr/local/bin/|$work/new/|" "$top/office/$unit" >"units/$unit"
    done
    lint mandoc mandoc -Tlint -W style "$top/office/letting.1"
    lint man sh -c 'LC_ALL=C.UTF-8 man --warnings -l "$1" >/dev/null' man "$top/office/letting.1"
    lint systemd-analyze systemd-analyze verify --man=no units/letting.service units/letting-copy.service \
        units/letting-copy.timer
    lint shellcheck shellcheck -S warning "$top/letting" "$top"/office/{nightly-copy,letting-serve,renew} "$top/bench/install.sh"
}

# What the systemd of `played` begins in, in namespaces of its own: ROOT is this system, which can't be written but for folders in memory, and
# FOLDER is in it as /mnt/trial.
contained() {
    cat <<'SH'
set -eu
root=$1 folder=$2
mount --make-rprivate /
mount --bind / "$root"
mount -o remount,bind,ro "$root"
for name in tmp run var root home etc usr/local mnt dev work; do
    [ ! -d "$root/$name" ] || mount -t tmpfs -o mode=755 tmpfs "$root/$name"
done
mount -t proc proc "$root/proc"
mount --bind "$root/proc/sys" "$root/proc/sys"
mount -o remount,bind,ro "$root/proc/sys"
mount -t sysfs -o ro sysfs "$root/sys"
if [ -d /sys/fs/cgroup/systemd ]; then
    mount -t tmpfs tmpfs "$root/sys/fs/cgroup"
    mkdir "$root/sys/fs/cgroup/systemd"
    mount -t cgroup -o none,name=systemd cgroup "$root/sys/fs/cgroup/systemd"
else
    mount -t cgroup2 cgroup2 "$root/sys/fs/cgroup"
fi
for name in null zero full random urandom tty; do cp -a "/dev/$name" "$root/dev"; done
ln -s pts/ptmx "$root/dev/ptmx"
ln -s /proc/self/fd "$root/dev/fd"
: >"$folder/console"
ln -s /mnt/trial/console "$root/dev/console"
mkdir -p "$root/dev/shm" "$root"/var/{lib,log,tmp,backups} "$root/mnt/trial" "$root/mnt/old" "$root/usr/local/bin"
mount --bind "$folder" "$root/mnt/trial"
cp -a /etc/. "$root/etc"
rm -rf "$root"/etc/systemd/system/* "$root"/etc/tmpfiles.d/*
cp "$folder"/units/* "$root/etc/systemd/system"
cp "$folder"/bin/* "$root/usr/local/bin"
echo 'letting:x:990:990::/nonexistent:/usr/sbin/nologin' >>"$root/etc/passwd"
echo 'letting:x:990:' >>"$root/etc/group"
install -d -o 990 -g 990 -m 700 "$root/var/lib/letting" "$root/var/backups/letting"
for name in tmpfiles-setup tmpfiles-setup-dev sysctl udevd udev-trigger journal-flush random-seed binfmt; do
    ln -s /dev/null "$root/etc/systemd/system/systemd-$name.service"
done
ip link set lo up
cd "$root"
pivot_root . mnt/old
umount -l /mnt/old
export container=trial PATH=/usr/sbin:/usr/bin:/sbin:/bin
exec /lib/systemd/systemd --system --unit=trial.target --show-status=0 --log-target=journal
SH
}

# What is played in it. It prints WHAT, WANTED and GOT with tabs between them.
play() {
    cat <<'SH'
#!/usr/bin/env bash
file=/var/lib/letting/office.db
same() { printf '%s\t%s\t%s\n' "$1" "$2" "$3"; }
office() { (cd /var/lib/letting && exec setpriv --reuid=letting --regid=letting --clear-groups "$@"); }
state() { systemctl show -P ActiveState "$1"; }
asked() { timeout 5 bash -c 'exec 3<>/dev/tcp/127.0.0.1/8080; printf "GET /branches HTTP/1.0\r\n\r\n" >&3; head -c 12 <&3' 2>/dev/null | cut -c10-; }
# waited SECONDS WANTED CALL..: what the call prints, once it is as wanted, or as it is then.
waited() {
    local end=$((SECONDS + $1))
    until [ "$("${@:3}")" = "$2" ] || [ $SECONDS -ge $end ]; do sleep 0.1; done
    "${@:3}"
}
killed() {
    waited 20 200 asked >/dev/null
    pkill -9 -f 'letting serve --file'
    sleep 0.1
}
copies() { find /var/backups/letting -type f | wc -l; }

systemctl start letting.service
same 'no file: the service' failed "$(waited 10 failed state letting)"
systemctl start letting-copy.service
same 'no file: the copy' failed "$(waited 10 failed state letting-copy)"
same 'both are listed' 2 "$(systemctl --failed --plain --no-legend | grep -c letting)"
office letting init --file office.db --first 2025-01 >/dev/null
systemctl start letting.service
same 'a file' 200 "$(waited 10 200 asked)"
systemctl start letting-copy.service
same 'a copy' '1 inactive' "$(copies) $(state letting-copy)"
for count in {1..12}; do
    systemctl stop letting.service
    systemctl start letting.service || same "start $count" 0 $?
done
same 'twelve stops and starts' 200 "$(waited 10 200 asked)"
for count in {1..8}; do killed; done
same 'eight kills' 200 "$(waited 10 200 asked)"

# Another call has the file for three seconds, and then one has it again and again.
systemctl stop letting.service
mkfifo -m 666 /tmp/lines
office letting batch --file office.db </tmp/lines >/dev/null &
exec 7>/tmp/lines
sleep 1
systemctl start letting.service
sleep 3
same 'a busy file' 'active ' "$(state letting) $(asked)"
exec 7>&-
wait
same 'once it is free' '200 0' "$(waited 10 200 asked) $(systemctl show -P NRestarts letting)"
(while [ ! -e /tmp/ended ]; do
    office letting report --file office.db branches >/dev/null
    sleep 0.05
done) &
for count in {1..10}; do killed; done
same 'kills beside reports' 200 "$(waited 20 200 asked)"
touch /tmp/ended
wait

# The service ends at its next request, or is killed before it comes.
lost_as() {
    same "$1" ' failed ' "$(asked) $(waited 10 failed state letting) $(asked)"
}
killed_as() {
    pkill -9 -f 'letting serve --file'
    same "$1" 'failed ' "$(waited 10 failed state letting) $(asked)"
}
mv $file /var/lib/letting/moved.db
lost_as 'a file that was moved'
mv /var/lib/letting/moved.db $file
systemctl start letting.service
same 'moved back' 200 "$(waited 10 200 asked)"
mv $file /var/lib/letting/moved.db
killed_as 'a file that was moved, and a kill'
mv /var/lib/letting/moved.db $file
systemctl start letting.service
same 'moved back again' 200 "$(waited 10 200 asked)"
mkdir /var/lib/letting/away
mv $file* /var/lib/letting/away
office letting init --file office.db --first 2025-02 >/dev/null
lost_as 'a file that was replaced'
systemctl start letting.service
same 'the new file, once it is started' 200 "$(waited 10 200 asked)"
killed
same 'and started again' 200 "$(waited 10 200 asked)"

# The file is written while it is copied, each time; and there is no folder.
printf '#!/bin/sh\n/bin/cp "$@"\nsleep 0.05\n' >/usr/local/bin/cp
chmod 755 /usr/local/bin/cp
(while [ ! -e /tmp/at_rest ]; do touch $file; done) &
systemctl start --no-block letting-copy.service
sleep 1
same 'a copy under writes' auto-restart "$(waited 60 auto-restart systemctl show -P SubState letting-copy)"
same 'its status' '75 1' "$(systemctl show -P ExecMainStatus letting-copy) $(copies)"
touch /tmp/at_rest
wait
systemctl restart letting-copy.service
same 'once more' '2 inactive' "$(copies) $(state letting-copy)"
mv /var/backups/letting /var/backups/away
systemctl start letting-copy.service
same 'no folder for the copies' 'failed 2' "$(state letting-copy) $(systemctl show -P ExecMainStatus letting-copy)"
same 'played to the end' yes yes
SH
}

# A file in the lower of two layers: its first opening for writing copies it.
layered() {
    mkdir -p layers/{lower,upper,work,seen}
    cp held.db layers/lower/office.db
    if ! mount -t overlay -o lowerdir=layers/lower,upperdir=layers/upper,workdir=layers/work overlay layers/seen 2>/dev/null; then
        echo 'not tried: a file in a lower layer'
        return
    fi
    same 'a file in a lower layer' "$(call new/letting report --file held.db branches)" "$(call new/letting report --file layers/seen/office.db branches)"
    same 'that was copied' "$(call new/letting report --file held.db branches)" "$(call new/letting report --file layers/seen/office.db branches)"
    same 'the lower layer' 'office.db' "$(listed layers/lower)"
    umount layers/seen
}

# The units, under a systemd that this call begins and ends.
played() {
    local cgroup=/sys/fs/cgroup what want got
    if [ "$(id -u)" != 0 ] || [ ! -x /lib/systemd/systemd ] || ! type -P unshare pivot_root ip setpriv pkill >/dev/null; then
        echo 'not tried: the units under systemd'
        return
    fi
    mkdir -p root trial/{units,bin}
    cp "$top"/office/*.{service,timer} trial/units
    cp new/letting "$top"/office/{nightly-copy,letting-serve,renew} trial/bin
    contained >trial/contained
    play >trial/play
    chmod 755 trial/play
    printf '[Unit]\nWants=trial.service\nRequires=systemd-journald.service\n' >trial/units/trial.target
    printf '[Service]\nType=oneshot\nExecStart=/mnt/trial/play\nExecStopPost=/bin/systemctl --no-block exit\nStandardOutput=file:/mnt/trial/out\n' \
        >trial/units/trial.service
    printf 'StandardError=file:/mnt/trial/err\n' >>trial/units/trial.service
    [ ! -d $cgroup/systemd ] || cgroup=$cgroup/systemd
    cgroup=$cgroup/letting-$$
    mkdir "$cgroup" 2>/dev/null && (
        echo $BASHPID >"$cgroup/cgroup.procs" &&
            exec timeout -s KILL 600 unshare --mount --pid --fork --kill-child --uts --ipc --cgroup --net bash trial/contained root trial
    ) >trial/said 2>&1 </dev/null
    find "$cgroup" -depth -type d -exec rmdir {} \; 2>/dev/null
    if [ ! -s trial/out ]; then
        echo "not tried: the units under systemd, which did not begin: $(head -1 trial/said)"
        return
    fi
    while IFS=$'\t' read -r what want got; do
        same "the units: $what" "$want" "$got"
    done <trial/out
    same 'the units: the last' 'played to the end' "$(tail -1 trial/out | cut -f1)"
}

handed_on
[ -x "$built" ] || {
    echo "bench/install.sh: $checks checks, $wrong differ; the others need the program: \`./letting init ..\` or \`.ci/run\` builds it" >&2
    exit 3
}
installing
shut
over_a_running_one
cp "$top/office/nightly-copy" new
copying
while_it_is_held
unsound
crowded
served
other_tables
layered
linted
played
echo "$checks checks, $wrong differ"
[ $wrong = 0 ]
