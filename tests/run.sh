#!/usr/bin/env bash
# All tests besides the proofs: the examples in other languages, a look at what was built, the unit tests, the six programs, and fresh random cases for some
# seconds, by default 15.
set -eu
cd "$(dirname "$0")/.."
tests/needs.sh
export PYTHONDONTWRITEBYTECODE=1
mkdir -p target
tools/build.sh kbest kbest_file kbest_page kbest_find kbest_limit kbest_table cases >target/tests.log 2>&1 || { tail -20 target/tests.log; exit 1; }
bindings/build.sh
python3 tests/archive.py target/staticlib/libkbest_c.a target/bin/kbest target/bin/kbest_file target/bin/kbest_page \
    target/bin/kbest_find target/bin/kbest_limit target/bin/kbest_table
python3 -m unittest discover -s tests -p 'test_*.py'
python3 tests/programs.py
python3 tests/fresh.py "${1:-15}"
echo "all tests besides the proofs passed"
