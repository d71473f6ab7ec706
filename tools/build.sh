#!/usr/bin/env bash
# Proves and builds: tools/build.sh NAME.. writes target/bin/NAME of a program, target/staticlib/libNAME.a of a static library. Says which crates are proved;
# what has not changed since an earlier run is not proved again. Fails if one is not proved.
set -u -o pipefail
cd "$(dirname "$0")/.." || exit 1

put() { # FROM TO: a file that is the same is left as old as it is
    mkdir -p "$(dirname "$2")" || return 1
    cmp -s "$1" "$2" || { cp "$1" "$2.new" && mv "$2.new" "$2"; }
}
told() { # what rt says, with a line of our own for each crate that it has checked
    sed -u -E 's/^crate (\w+): modules .*/rt: \1 proved (&)/'
}
for name; do
    if grep -Eq "^$name staticlib\b" crates.txt; then
        made=lib$name.a to=target/staticlib/lib$name.a
        (cd "crates/$name" && rt lib </dev/null 2>&1) | told || exit 1
    else
        made=$name to=target/bin/$name
        (cd "crates/$name" && rt run </dev/null 2>&1 >/dev/null) | told || exit 1
    fi
    put "crates/$name/out/$made" "$to" || exit 1
done
