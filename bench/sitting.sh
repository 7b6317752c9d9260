#!/usr/bin/env bash
# Takes the figures of docs/PERFORMANCE.md anew, one script after the other, once their programs are built. Let nothing else run beside it.
#
#     bench/sitting.sh FOLDER [NAME..]     all that the page has figures of, or these alone
#
# FOLDER has to be on a disk: `size` makes its files there, and all others make theirs in /dev/shm. What bench/NAME.sh prints goes into
# FOLDER/NAME.out, and FOLDER/machine says on what, and how busy that was before each. What has its file is passed over, so a sitting that was
# cut off goes on. Ends with 0 if each script did.
set -u
cd "$(dirname "$0")/.."
folder=$(realpath "$1")
shift
[ $# -gt 0 ] || set -- branches lines commands serve runs office reports migration sqlite_alone audit rules tables size large refused_memory slow_peer
mkdir -p "$folder"

# The words that the page has figures of.
words_of() {
    case $1 in
    commands | runs | office) echo 1000 10000 ;;
    audit) echo 1000 3000 10000 30000 ;;
    size) echo -d "$folder" ;;
    esac
}

./letting batch </dev/null || exit 1
for libraries in bench/*/libraries; do
    name=$(basename "$(dirname "$libraries")")
    [ "$name" = large_books ] && word='rules 10' || word=nothing
    bench/program.sh "$name" $word </dev/null >"$folder/built" || exit 1
done
echo "$(git rev-parse --short=8 HEAD), $(nproc) processors, $(grep -m1 'model name' /proc/cpuinfo), $(grep MemTotal /proc/meminfo)" >>"$folder/machine"
failed=0
for name; do
    [ -e "$folder/$name.out" ] && continue
    echo "$(date '+%F %T') $name, with a load of $(cut -d' ' -f1-3 /proc/loadavg)" | tee -a "$folder/machine"
    if TMPDIR=/dev/shm "bench/$name.sh" $(words_of "$name") >"$folder/$name.part" 2>"$folder/$name.err"; then
        mv "$folder/$name.part" "$folder/$name.out"
    else
        echo "$name ended with $?: $(tail -n 1 "$folder/$name.err")"
        failed=1
    fi
done
exit $failed
