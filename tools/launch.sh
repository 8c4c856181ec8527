#!/bin/sh
# Runs the program of build/ by whose name this script is called, and builds it first if it is not there or a source is newer.
# The programs' names at the top of the repository are links to it.
name=$(basename -- "$0")
here=$(CDPATH='' cd -- "$(dirname -- "$0")" && pwd) || exit 1

is_current() {
    # shellcheck disable=SC2016
    [ -x "$here/build/$name" ] &&
        [ -z "$(cd "$here" && tools/list_sources.sh | xargs sh -c 'find "$@" -newer "build/$0" -print' "$name" | head -n 1)" ]
}

if ! is_current; then
    if ! command -v rt > /dev/null; then
        echo "$name: the Rattle toolchain (rt) is not on the PATH" >&2
        exit 1
    fi
    echo "$name: proving and building the program first" >&2
    if ! make --no-print-directory -C "$here" "build/$name" >&2 < /dev/null; then
        echo "$name: the build failed, so the program was not run" >&2
        exit 1
    fi
fi
exec "$here/build/$name" "$@"
