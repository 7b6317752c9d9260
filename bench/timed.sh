# The beginning of a measurement of the program on files: it is built, and `work` is a directory that goes when the script ends.
set -eu
./letting batch </dev/null
work=$(mktemp -d)
trap 'rm -rf "$work"' EXIT

# time_of STATUS WORD..: the milliseconds of the program with these words. It has to end with this status; what it prints is in `said`.
time_of() {
    local status=$1 start end ended=0
    shift
    start=$(date +%s%N)
    ./letting "$@" >"$work/said" || ended=$?
    end=$(date +%s%N)
    if [ "$ended" != "$status" ]; then
        echo "$*: ended with $ended, and printed: $(cat "$work/said")" >&2
        return 1
    fi
    awk "BEGIN { printf \"%.1f\n\", ($end - $start) / 1000000 }"
}
