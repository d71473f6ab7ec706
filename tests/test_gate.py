#!/usr/bin/env python3
"""Tests of .ci/run with an acted toolchain, and of what tests/run.sh says if something that it needs is missing. Run: python3 tests/test_gate.py"""

import os
import shutil
import subprocess
import tempfile
import unittest

ROOT = os.path.join(os.path.dirname(os.path.abspath(__file__)), '..')
PASSED = '57 passed, 0 failed'
RT = '''#!/bin/sh
echo "rt $*" >>calls
case "$1 $ACT" in
"ci ci") echo "rt: FAILED: x"; echo "56 passed, 1 failed"; exit 1 ;;
"ci broken") echo "%s"; exit 2 ;;
"ci layout") echo "run rt fmt in the crate's folder"; echo "rt: x NOT PROVED"; echo "56 passed, 1 failed"; exit 1 ;;
"ci bad") echo "rt: ok: 3 crates, must-fail edits: 9 refused, 1 bad"; echo "%s"; exit 0 ;;
ci*) rm -rf target; echo "rt: ok"; echo "%s" ;;
esac
''' % (PASSED, PASSED, PASSED)
TESTS = '#!/bin/sh\necho tests >>calls\n[ "$ACT" != tests ] || exit 1\necho "all passed"\n'


class Script(unittest.TestCase):
    def setUp(self):
        self.folder = tempfile.mkdtemp()
        self.addCleanup(shutil.rmtree, self.folder)

    def file(self, name, content):
        path = os.path.join(self.folder, name)
        os.makedirs(os.path.dirname(path), exist_ok=True)
        with open(path, 'w') as f:
            f.write(content)
        os.chmod(path, 0o755)

    def copy(self, name):
        with open(os.path.join(ROOT, name)) as f:
            self.file(name, f.read())

    def run_script(self, name, **environment):
        return subprocess.run([os.path.join(self.folder, name)], env=environment, stdout=subprocess.PIPE, stderr=subprocess.STDOUT, text=True)


class Gate(Script):
    def setUp(self):
        super().setUp()
        self.copy('.ci/run')
        self.file('tests/needs.sh', '#!/bin/sh\n[ "$ACT" != needs ]\n')
        self.file('tests/run.sh', TESTS)
        self.file('tool/rt', RT)

    def gate(self, act):
        """(exit status, last line, what was called)"""
        self.file('calls', '')
        path = os.path.join(self.folder, 'tool') + os.pathsep + os.environ['PATH']
        done = self.run_script('.ci/run', PATH=path, ACT=act, TMPDIR=self.folder)
        self.assertEqual([name for name in os.listdir(self.folder) if name.startswith('tmp')], [])
        with open(os.path.join(self.folder, 'calls')) as f:
            return done.returncode, done.stdout.splitlines()[-1], f.read().splitlines()

    def test_passes(self):
        self.assertEqual(self.gate(''), (0, PASSED, ['rt ci', 'tests']))

    def test_fails(self):
        ways = {
            'needs': ('FAILED: something that the tests need is missing', []),
            'ci': ('FAILED: rt ci', ['rt ci']),
            'layout': ('FAILED: rt ci', ['rt ci']),
            'broken': ('FAILED: rt ci', ['rt ci']),
            'bad': ('FAILED: a must-fail edit that cannot be read', ['rt ci']),
            'tests': ('FAILED: tests/run.sh', ['rt ci', 'tests']),
        }
        for act, (last, calls) in ways.items():
            with self.subTest(act=act):
                self.assertEqual(self.gate(act), (1, last, calls))


class Needs(Script):
    """tests/run.sh with a PATH on which programs are missing."""

    PACKAGES = {'rt': 'the Rattle toolchain', 'python3': 'Debian package python3', 'gcc': 'Debian packages gcc and libc6-dev', 'rustc': 'Debian package rustc'}

    def setUp(self):
        super().setUp()
        self.copy('tests/run.sh')
        self.copy('tests/needs.sh')
        self.file('tools/build.sh', '#!/bin/sh\nexec rt "$@"\n')
        os.makedirs(os.path.join(self.folder, 'tool'))
        for name in ('bash', 'dirname', 'mkdir'):
            os.symlink(shutil.which(name), os.path.join(self.folder, 'tool', name))
        for name in self.PACKAGES:
            self.file('tool/' + name, '#!/bin/sh\necho "%s: called" >&2\nexit 1\n' % name)

    def run_tests(self):
        done = self.run_script('tests/run.sh', PATH=os.path.join(self.folder, 'tool'))
        return done.returncode, done.stdout

    def test_each(self):
        for name, where in self.PACKAGES.items():
            path = os.path.join(self.folder, 'tool', name)
            os.rename(path, path + '-away')
            self.assertEqual(self.run_tests(), (1, 'missing: %s (%s)\n' % (name, where)))
            os.rename(path + '-away', path)

    def test_all(self):
        for name in self.PACKAGES:
            os.remove(os.path.join(self.folder, 'tool', name))
        self.assertEqual(self.run_tests(), (1, ''.join('missing: %s (%s)\n' % item for item in self.PACKAGES.items())))

    def test_none(self):
        """With all of them there the first step is run."""
        status, out = self.run_tests()
        self.assertNotEqual(status, 0)
        self.assertNotIn('missing', out)
        with open(os.path.join(self.folder, 'target', 'tests.log')) as f:
            self.assertEqual(f.read(), 'rt: called\n')


if __name__ == '__main__':
    unittest.main()
