#!/usr/bin/env bash
# Says which of the programs that the tests need is missing, and where it is to be had; fails if one is.
missing=0

need() { # PROGRAM WHERE
    command -v "$1" >/dev/null || { echo "missing: $1 ($2)" >&2; missing=1; }
}
need rt "the Rattle toolchain"
need python3 "Debian package python3"
need gcc "Debian packages gcc and libc6-dev"
need rustc "Debian package rustc"
exit "$missing"
