#!/bin/sh
# Prints the manual page of PROGRAM with the names by which the programs are installed, if the first one is given NAME.
#
#     tools/render_man.sh NAME PROGRAM
#
# In the pages of docs/ the plain names are those of the programs. Where Subversion's own tool or a line that a program prints
# is meant, the name has a \& in it, and stays.
set -eu
cd "$(dirname -- "$0")/.."
case $1 in
"" | [!A-Za-z0-9]* | *[!A-Za-z0-9._+-]*)
    echo "tools/render_man.sh: no program can be named '$1'" >&2
    exit 1
    ;;
esac

capitals() {
    printf %s "$1" | tr '[:lower:]' '[:upper:]'
}

# the first program comes last, since NAME may have another one's name in it
edits=$(tools/installed_names.sh "$1" | tac | while read -r program installed; do
    echo "s/$program/$installed/g; s/$(capitals "$program")/$(capitals "$installed")/g"
done)
sed -e "$edits" "$(awk -v program="$2" '$1 == program { print $3 }' programs.txt)"
