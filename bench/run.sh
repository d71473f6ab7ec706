#!/usr/bin/env bash
# Builds the library and the comparison and prints the table of ratios. Words go to the comparison. Writes only under target/.
set -eu
cd "$(dirname "$0")/.."
out=target/bench
mkdir -p "$out"
tools/build.sh kbest_c >"$out/staticlib.log" 2>&1 || { tail -20 "$out/staticlib.log"; exit 1; }
flags="--edition 2021 -C opt-level=3 -D warnings"
rustc $flags --crate-type rlib --crate-name kbest bindings/rust/src/lib.rs -L native=target/staticlib --out-dir "$out"
rustc $flags bench/main.rs --crate-name kbest_bench --extern kbest="$out/libkbest.rlib" -o "$out/kbest_bench"
exec "$out/kbest_bench" "$@"
