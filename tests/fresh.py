#!/usr/bin/env python3
"""Fresh random cases, for as long as one likes, to the proved programs and to reference.py.

    tests/fresh.py [SECONDS] [SEED]     by default 60 seconds and a seed that is drawn

Builds the program `cases` and the six of programs.py first (tools/build.sh). Stops at the first difference and prints the seed, the case or the input and what
came; exit status 1. `tests/cases.py show SEED N` prints a case again.
"""

import os
import subprocess
import sys
import time

import kinds
import machine
import programs

ROOT = os.path.join(os.path.dirname(os.path.abspath(__file__)), '..')
PROGRAM = os.path.join(ROOT, 'target', 'bin', 'cases')
AT_ONCE, INPUTS = 40, 10    # cases, and after them inputs to each of the six programs


def run(data):
    try:
        return subprocess.run([PROGRAM], input=data, stdout=subprocess.PIPE, timeout=600).stdout.decode('latin-1')
    except subprocess.TimeoutExpired as late:
        return (late.stdout or b'').decode('latin-1') + 'no end after 600 seconds\n'


def compare(seed, numbers):
    """None, or the first case whose output differs, as (number, what came)."""
    made = [kinds.fresh(seed, n) for n in numbers]
    if run(machine.encoded(made)) == machine.expected(made):
        return None
    for n, case in zip(numbers, made):
        got = run(machine.encoded([case]))
        if got != machine.expected([case]):
            return n, got
    return numbers[0], 'cases %d to %d differ only if they are run together\n' % (numbers[0], numbers[-1])


def main(args):
    seconds = float(args[0]) if args else 60
    seed = args[1] if len(args) > 1 else str(int.from_bytes(os.urandom(4), 'little'))
    if subprocess.run(['tools/build.sh', 'cases', *programs.PROGRAMS], cwd=ROOT, stdout=subprocess.DEVNULL).returncode:
        print('tools/build.sh fails')
        return 1
    print('seed %s' % seed, flush=True)
    end, n, m = time.monotonic() + seconds, 0, 0
    while time.monotonic() < end:
        found = compare(seed, range(n, n + AT_ONCE))
        if found:
            print('case %d of seed %s differs\n%sgot\n%s' % (found[0], seed, machine.describe(kinds.fresh(seed, found[0])), found[1]))
            return 1
        if not programs.compare(seed, range(m, m + INPUTS)):
            return 1
        n, m = n + AT_ONCE, m + INPUTS
    print('%d cases and %d inputs to each of %d programs are equal' % (n, m, len(programs.PROGRAMS)))
    return 0


if __name__ == '__main__':
    sys.exit(main(sys.argv[1:]))
