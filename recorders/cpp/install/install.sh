#!/usr/bin/env bash
# Installs the headers, the pkg-config file and the CMake package of the recorder.
# usage: install.sh PREFIX [ROOT]       under ROOT/PREFIX, where ROOT isn't part of what the files name
set -euo pipefail
[ $# = 1 ] || [ $# = 2 ] || { sed -n '3s/^# //p' "$0" >&2; exit 2; }
here="$(cd "$(dirname "$0")" && pwd)"
to="${2:-}$1"
version="$("$here/../../../packaging/version")"

# filled FILE: a file of this folder, with what it leaves open
filled() { sed -e "s/@VERSION@/$version/" -e "s|@PREFIX@|$1|" "$2"; }

mkdir -p "$to/include/vataudit" "$to/share/pkgconfig" "$to/share/cmake/vataudit"
install -m 644 "$here"/../vataudit/{recorder,test}.h "$to/include/vataudit"
install -m 644 "$here/vataudit-config.cmake" "$to/share/cmake/vataudit"
filled "$1" "$here/vataudit.pc.in" > "$to/share/pkgconfig/vataudit.pc"
filled "$1" "$here/vataudit-config-version.cmake.in" > "$to/share/cmake/vataudit/vataudit-config-version.cmake"
chmod 644 "$to/share/pkgconfig/vataudit.pc" "$to/share/cmake/vataudit/vataudit-config-version.cmake"
