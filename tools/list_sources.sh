#!/bin/sh
# Prints the files that the program is built from, one a line.
cd "$(dirname -- "$0")/.." || exit 1
echo crates.txt
echo HANDLES
find crates -name out -prune -o -name must-fail -prune -o -type f \( -name '*.rt' -o -name '*.antt' \) -print
