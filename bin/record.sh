#!/bin/sh
# Prints what is kept beside a program: the version, the toolchain that built it, and the checksum of its sources.
set -eu
here=$(dirname -- "$(readlink -f -- "$0")")
toolchain=$(rt version)
sources=$(sh "$here/sources.sh")
echo "version $(cat -- "$here/../VERSION")"
echo "toolchain $toolchain"
echo "sources $sources"
