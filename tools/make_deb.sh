#!/bin/sh
# Makes a Debian package of all programs, their pages and their documents. It can be installed next to Debian's own subversion,
# which has no program of these names. The version is that of CHANGELOG.md; if it is not released, the time and the name of
# the last commit are appended.
set -eu
cd "$(dirname -- "$0")/.."
package=svndumpfilter-proved
maintainer='The maintainers of svndumpfilter-proved <maintainers@users.noreply.geimust.example>'
root=build/deb
documents=$root/usr/share/doc/$package
architecture=$(dpkg --print-architecture)

# commit FORMAT: of the last commit, or nothing if there is none
commit() {
    TZ=UTC git log -1 --date=format-local:%Y%m%d%H%M%S --format="$1" 2> /dev/null || true
}

version=$(sed -n 's/^## \([^ ]*\).*/\1/p' CHANGELOG.md | head -n 1)
case $version in
    *-dev)
        since=$(commit %cd.%h)
        # a version with a tilde comes before the one without what follows it
        version=${version%-dev}~dev${since:+.$since}
        ;;
esac
day=$(commit %cD)

rm -rf "$root" build/${package}_*.deb
DESTDIR=$root PREFIX=/usr NAME=$package FORCE=1 tools/install.sh install > /dev/null
rm "$documents/installed"
strip --strip-all "$root/usr/bin/"*
gzip -9n "$root/usr/share/man/man1/"*
cp CHANGELOG.md "$documents"

gzip -9n > "$documents/changelog.gz" <<END
$package ($version) unstable; urgency=medium

  * CHANGELOG.md, beside this file, says what has changed.

 -- $maintainer  ${day:-$(date -R -r CHANGELOG.md)}
END
cat > "$documents/copyright" <<END
$package: removes paths from Subversion dump files, filters them, and reports what filtering loses.

Copyright 2026, the authors of $package. No licence has been chosen yet, so none is granted: whoever wants to hand
this package on has to ask them.
END

# the C library is all that the programs load; their symbols say which version of it they need
loads=$(objdump -p "$root/usr/bin/"* | sed -n 's/^ *NEEDED *//p' | sort -u)
needs=$(objdump -T "$root/usr/bin/"* |
    sed -n 's/.*GLIBC_\([0-9.]*\).*/\1/p' | sort -u -V | tail -n 1)
if [ "$loads" != libc.so.6 ] || [ -z "$needs" ]; then
    echo "tools/make_deb.sh: the programs load more than the C library, and no package is known for that: $loads" >&2
    exit 1
fi

mkdir "$root/DEBIAN"
cat > "$root/DEBIAN/control" <<END
Package: $package
Version: $version
Architecture: $architecture
Maintainer: $maintainer
Installed-Size: $(du -ks "$root/usr" | cut -f1)
Depends: libc6 (>= $needs)
Section: vcs
Priority: optional
Description: programs that remove paths from Subversion dumps, proved
 svndumpcut removes paths from the dump of a whole Subversion repository,
 and copies of them too if asked. Where it ends with status 0, it is proved
 that what it wrote loads if the dump loads, and has the old trees without
 these paths.
 .
 svndumpfilter-proved filters a dump as Subversion's svndumpfilter does.
 What it writes is proved to be what the definition of the filter says.
 svndumpsurvey-proved reports before that where the loaded repository may
 not be the one that is meant.
END
(cd "$root" && find usr -type f -exec md5sum {} + | sort -k 2) > "$root/DEBIAN/md5sums"
chmod -R u=rwX,go=rX "$root"
dpkg-deb --root-owner-group --build "$root" "build/${package}_${version}_$architecture.deb"
