#!/bin/sh
# install.sh [PREFIX]: installs the C library under PREFIX (/usr/local where none is given): include/mudcanvas.h, lib/libmudcanvas.a, and what pkg-config and
# CMake need to find them. The archive is proved and compiled first where it is not up to date. DESTDIR is put before PREFIX, for whoever builds a package.
set -eu
case ${1:-} in
-*)
    echo "usage: install.sh [PREFIX]" >&2
    exit 2
    ;;
esac
to=${DESTDIR:-}${1:-/usr/local}
case $to in /*) ;; *) to=$PWD/$to ;; esac
cd "$(dirname "$(readlink -f "$0")")"
./archive.sh
version=$(sed -n 's/^#define MUDCANVAS_VERSION "\(.*\)"$/\1/p' include/mudcanvas.h)
install -d "$to/include" "$to/lib/pkgconfig" "$to/lib/cmake/mudcanvas" "$to/share/doc/mudcanvas"
install -m 644 include/mudcanvas.h "$to/include"
install -m 644 target/staticlib/libmudcanvas.a "$to/lib"
install -m 644 install/mudcanvasConfig.cmake "$to/lib/cmake/mudcanvas"
install -m 644 NOTICE "$to/share/doc/mudcanvas"
sed "s/@VERSION@/$version/" install/mudcanvas.pc.in >"$to/lib/pkgconfig/mudcanvas.pc"
sed "s/@VERSION@/$version/" install/mudcanvasConfigVersion.cmake.in >"$to/lib/cmake/mudcanvas/mudcanvasConfigVersion.cmake"
chmod 644 "$to/lib/pkgconfig/mudcanvas.pc" "$to/lib/cmake/mudcanvas/mudcanvasConfigVersion.cmake"
echo "installed mudcanvas $version in $to"
