#!/bin/sh
# Puts the library, its C header and a pkg-config file under a prefix.
set -eu

usage() {
    cat <<'END'
usage: scripts/install.sh PREFIX

Puts PREFIX/lib/libsofretu.a, PREFIX/include/sofretu.h and PREFIX/lib/pkgconfig/sofretu.pc. PREFIX is an absolute path, such as /usr/local.
If the variable DESTDIR is set, all goes into that folder first, for a package: DESTDIR/PREFIX/lib/libsofretu.a and so on.
The library is made by 'scripts/build.sh'. A C program is then compiled so:

    export PKG_CONFIG_PATH=PREFIX/lib/pkgconfig
    gcc program.c $(pkg-config --cflags --libs sofretu)
END
}

refuse() {
    echo "install.sh: $1" >&2
    exit "$2"
}

[ $# -eq 1 ] || refuse "give one prefix, such as /usr/local (--help says more)" 2
case $1 in
-h | --help)
    usage
    exit 0
    ;;
*[[:space:]\"\'\\\$\#]*) refuse "the prefix '$1' has a space, quote, backslash, dollar or hash, which a pkg-config file does not carry" 2 ;;
/*) prefix=${1%/} ;;
*) refuse "the prefix '$1' is not an absolute path" 2 ;;
esac

root=$(cd "$(dirname "$0")/.." && pwd)
library=$root/target/staticlib/libsofretu.a
header=$root/include/sofretu.h
[ -f "$library" ] || refuse "$library is not there: run 'scripts/build.sh' in $root first" 1
version=$(sed -n 's/^#define SOFRETU_VERSION_TEXT "\([0-9.]*\)"$/\1/p' "$header")
[ -n "$version" ] || refuse "$header has no SOFRETU_VERSION_TEXT" 1

# Puts standard input into a file whole or not at all, so that nobody reads a part of it.
put() {
    mkdir -p "$(dirname "$1")"
    cat >"$1.new"
    chmod 644 "$1.new"
    mv -f "$1.new" "$1"
    echo "$1"
}

target=${DESTDIR:-}$prefix
put "$target/lib/libsofretu.a" <"$library"
put "$target/include/sofretu.h" <"$header"
put "$target/lib/pkgconfig/sofretu.pc" <<END
prefix=$prefix
libdir=\${prefix}/lib
includedir=\${prefix}/include

Name: sofretu
Description: The proved settings engine
Version: $version
Libs: -L\${libdir} -lsofretu
Cflags: -I\${includedir}
END
