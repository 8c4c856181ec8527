#!/bin/sh
# Prints a line for each program of programs.txt: its name, and the name by which it is installed, if the first one is given
# NAME. In NAME, another one's name replaces the first one's. If NAME does not have that, the other's own word, as survey,
# is appended to it. svndumpcut has this name always: no other tool has it.
#
#     tools/installed_names.sh NAME
cd "$(dirname -- "$0")/.." || exit 1
grep -v '^#' programs.txt | {
    read -r first _
    echo "$first $1"
    while read -r program _; do
        if [ "$program" = svndumpcut ]; then
            echo "$program $program"
            continue
        fi
        case $1 in
        *"$first"*) echo "$program $(printf %s "$1" | sed "s/$first/$program/g")" ;;
        *) echo "$program $1-${program#svndump}" ;;
        esac
    done
}
