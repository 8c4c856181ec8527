#!/bin/sh
# Installs all programs, their manual pages and their documents under $DESTDIR$PREFIX, or removes them. The first program of
# programs.txt is given the name $NAME, the others as tools/installed_names.sh says.
#
#     tools/install.sh install|uninstall
#
# What was installed is noted, with digests, in share/doc/$NAME/installed. A file that is at one of the places and not as it is
# noted there, or under another NAME, is somebody else's. It is overwritten only if $FORCE is 1, and never removed. svndumpcut
# has one name under each NAME, so it stays if another note has it.
set -eu
cd "$(dirname -- "$0")/.."
root=$DESTDIR$PREFIX
documents=share/doc/$NAME
note=$documents/installed
pages=share/man/man1
texts="README.md docs/CUT.md docs/DIFFERENCES.md docs/SURVEY.md"
names=$(tools/installed_names.sh "$NAME" | cut -d' ' -f2)
files=
for installed in $names; do
    files="$files bin/$installed $pages/$installed.1"
done
for text in $texts; do
    files="$files $documents/$(basename "$text")"
done

is_there() {
    [ -e "$root/$1" ] || [ -L "$root/$1" ]
}

# is_noted FILE NOTE: it is as the note has it
is_noted() {
    [ -f "$2" ] && [ -f "$root/$1" ] && [ ! -L "$root/$1" ] &&
        (cd "$root" && sha256sum -- "$1") | grep -q -x -F -f - -- "$2"
}

# is_anothers FILE: it is as it was installed with another NAME
is_anothers() {
    for it in "$root"/share/doc/*/installed; do
        if [ "$it" != "$root/$note" ] && is_noted "$1" "$it"; then
            return 0
        fi
    done
    return 1
}

# is_ours FILE: it is as it was installed
is_ours() {
    is_noted "$1" "$root/$note" || is_anothers "$1"
}

refuse_to_overwrite() {
    status=0
    for file in $files; do
        if is_there "$file" && ! is_ours "$file"; then
            echo "tools/install.sh: $root/$file exists, and was not installed from here; FORCE=1 overwrites it" >&2
            status=1
        fi
    done
    return $status
}

put_file() {
    install -d "$root/$(dirname -- "$3")"
    install -m "$1" "$2/$3" "$root/$3"
}

install_all() {
    [ "${FORCE-}" = 1 ] || refuse_to_overwrite
    staged=$(mktemp -d)
    trap 'rm -rf "$staged"' EXIT
    mkdir -p "$staged/bin" "$staged/$pages" "$staged/$documents"
    tools/installed_names.sh "$NAME" | while read -r program installed; do
        tools/render_man.sh "$NAME" "$program" > "$staged/$pages/$installed.1"
        cp "build/$program" "$staged/bin/$installed"
    done
    # shellcheck disable=SC2086
    cp $texts "$staged/$documents"
    # shellcheck disable=SC2086
    (cd "$staged" && sha256sum -- $files > "$note")
    put_file 644 "$staged" "$note"
    for file in $files; do
        case $file in
        bin/*) put_file 755 "$staged" "$file" ;;
        *) put_file 644 "$staged" "$file" ;;
        esac
    done
    # shellcheck disable=SC2086
    echo "tools/install.sh: installed in $root:" $names "with their manual pages, and $documents"
}

uninstall_all() {
    if [ ! -f "$root/$note" ]; then
        echo "tools/install.sh: nothing is noted in $root/$note, so nothing is removed" >&2
        return 0
    fi
    for file in $files; do
        if is_anothers "$file"; then
            continue
        elif is_noted "$file" "$root/$note"; then
            rm -f -- "$root/$file"
        elif is_there "$file"; then
            echo "tools/install.sh: $root/$file is not as it was installed, and stays" >&2
        fi
    done
    rm -f -- "$root/$note"
    rmdir "$root/$documents" 2> /dev/null || true
}

case ${1-} in
install) install_all ;;
uninstall) uninstall_all ;;
*)
    echo "usage: tools/install.sh install|uninstall" >&2
    exit 2
    ;;
esac
