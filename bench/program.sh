#!/usr/bin/env bash
# The program of bench/NAME with the given words: program.sh NAME WORD.. The first call proves and builds it over the libraries as
# tools/build.py builds them, so that the gate has no part in it. bench/NAME/libraries names the libraries that it uses. Its sources
# end in .in, since a check reads each .rt file of this repository.
set -eu
name=$1
shift
cd "$(dirname "$(readlink -f "${BASH_SOURCE[0]}")")/.."
program=$PWD/bench/out/$name
uses=$(cat "bench/$name/libraries")
# The kit's libraries have no folder here.
libraries=$(for library in $uses; do [ ! -d "crates/$library" ] || echo "$library"; done)

sources() {
    echo crates.txt bench/program.sh "bench/$name"
    for library in $libraries; do
        for part in src specs proofs; do
            [ ! -d "crates/$library/$part" ] || echo "crates/$library/$part"
        done
    done
}

is_built() {
    [ -x "$program" ] && [ -z "$(find $(sources) -newer "$program" -type f -print -quit)" ]
}

build() {
    echo "$name: proving and building the program; this takes some minutes the first time" >&2
    local source
    room=$(mktemp -d)
    trap 'rm -rf "$room"' EXIT
    mkdir -p "$room/src" bench/out
    cp "bench/$name/libraries" "$room"
    for source in "bench/$name"/*.rt.in; do
        cp "$source" "$room/src/$(basename "$source" .in)"
    done
    tools/build.py "$name" "$room/log" "$room" || {
        tail -n 20 "$room/log" >&2
        return 1
    }
    mv "$room/out/$name" "$program"
}

is_built || build
"$program" "$@"
