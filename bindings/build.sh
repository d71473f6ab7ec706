#!/usr/bin/env bash
# Builds the static library, a shared library of it, the examples and the tests, runs them and compares what they print. Writes only under target/.
set -eu
cd "$(dirname "$0")/.."
out=target/bindings
archive=target/staticlib/libkbest_c.a
export PYTHONDONTWRITEBYTECODE=1
unset KBEST_LIBRARY

die() {
    echo "bindings: $*" >&2
    exit 1
}

need() { # PROGRAM WHERE-FROM
    command -v "$1" >/dev/null || die "$1 is missing: $2"
}
need rt "the Rattle toolchain"
need gcc "Debian packages gcc and libc6-dev"
need rustc "Debian package rustc"
need python3 "Debian package python3"

mkdir -p "$out"
tools/build.sh kbest_c >"$out/staticlib.log" 2>&1 || { tail -20 "$out/staticlib.log" >&2; exit 1; }

c_program() { # NAME
    gcc -std=c11 -O2 -Wall -Wextra -Werror -I bindings/c "bindings/c/$1.c" "$archive" -o "$out/c_$1"
}
rust_program() { # FOLDER/NAME
    rustc --edition 2021 -O -D warnings "bindings/rust/$1.rs" --extern kbest="$out/libkbest.rlib" -o "$out/rust_$(basename "$1")"
}
c_program example
c_program monday
c_program planners
c_program test_tables
c_program test_null
rustc --edition 2021 -O -D warnings --crate-type rlib --crate-name kbest bindings/rust/src/lib.rs -L native=target/staticlib --out-dir "$out"
rust_program examples/example
rust_program examples/monday
rust_program examples/planners
rust_program tests/tables
gcc -shared -Wl,--whole-archive "$archive" -Wl,--no-whole-archive -o "$out/libkbest.so"

same() { # WANTED FOUND WHAT
    diff "$1" "$2" || die "$3"
}

KBEST_LIBRARY=/nonexistent PYTHONPATH=bindings/python python3 -c 'import kbest' || die "importing the module in Python needs the library"

# each language prints the same version, limits and questions, and the version is that of the file VERSION
"$out/c_test_tables" >"$out/c_tables.out"
"$out/rust_tables" >"$out/rust_tables.out"
python3 bindings/python/test_tables.py >"$out/python_tables.out"
same "$out/c_tables.out" "$out/rust_tables.out" "the wrapper in Rust does not say what the header says"
same "$out/c_tables.out" "$out/python_tables.out" "the module in Python does not say what the header says"
version=$(cat VERSION)
IFS=. read -r first second third <VERSION
number=$((first * 10000 + second * 100 + third))
head -1 "$out/c_tables.out" | grep -qx "version $version $number, library $number" || die "VERSION has $version, but: $(head -1 "$out/c_tables.out")"
echo "version $version, limits and questions are the same in all languages"

fails() { # NAME FILE COMMAND..: ends with status 1, and says why
    name=$1 file=$2 status=0
    shift 2
    "$@" "$file" >/dev/null 2>"$out/$name.err" || status=$?
    [ "$status" = 1 ] || die "$name: the example ends with status $status for $file"
}
example() { # NAME COMMAND..: what it prints, the record that it files, a file that it refuses and one that it cannot write
    name=$1
    shift
    "$@" "$out/$name.record" >"$out/$name.out" || die "$name: the example failed"
    same bindings/expected.txt "$out/$name.out" "$name: not what bindings/expected.txt has"
    cmp "$out/c.record" "$out/$name.record" || die "$name: another record than in C"
    fails "$name" /dev/null "$@"
    same "$out/refused" "$out/$name.err" "$name: another refusal of an empty file"
    fails "$name" /dev/full "$@"
    grep -q '^/dev/full: No space left on device' "$out/$name.err" || die "$name: not the reason that the file cannot be written"
    echo "$name: as expected"
}
grep '^refused 19:' "$out/c_tables.out" >"$out/refused"
example c "$out/c_example"
example rust "$out/rust_example"
example python python3 bindings/python/example.py

prints() { # EXAMPLE NAME COMMAND..: what expected_EXAMPLE.txt has
    example=$1 name=$2
    shift 2
    "$@" >"$out/${name}_$example.out" || die "$name: the example $example failed"
    same "bindings/expected_$example.txt" "$out/${name}_$example.out" "$name: not what bindings/expected_$example.txt has"
}
for example in monday planners; do
    prints "$example" c "$out/c_$example"
    prints "$example" rust "$out/rust_$example"
    prints "$example" python python3 "bindings/python/$example.py"
done
echo "two dispatchers at a desk, and planners with a table, get the same answers in all languages"

"$out/c_test_null"
python3 bindings/python/test_random.py
python3 bindings/python/test_desk.py
