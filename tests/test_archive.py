#!/usr/bin/env python3
"""Tests of archive.py: it finds a table of powers as data and in code, and finds none where there is none. Run: python3 tests/test_archive.py"""

import contextlib
import io
import os
import shutil
import subprocess
import tempfile
import unittest

import archive

TABLE = [d ** e for d in range(1, 101) for e in range(9)]
ARRAY = '%s unsigned long table[%d] = {%s};\n'
STORES = 'void store(volatile unsigned long *to) {\n%s\n}\n'
LOOP = 'unsigned long raised(unsigned long d, int e) { unsigned long r = 1; while (e-- > 0) r *= d; return r; }\n'


def array(kind, powers):
    return ARRAY % (kind, len(powers), ', '.join('%dUL' % power for power in powers))


class Archive(unittest.TestCase):
    def setUp(self):
        self.folder = tempfile.mkdtemp()
        self.addCleanup(shutil.rmtree, self.folder)

    def path(self, name):
        return os.path.join(self.folder, name)

    def archived(self, *sources):
        """an archive of the sources, each an object of its own"""
        for i, source in enumerate(sources):
            with open(self.path('%d.c' % i), 'w') as f:
                f.write(source)
            subprocess.run(['gcc', '-O2', '-c', self.path('%d.c' % i), '-o', self.path('%d.o' % i)], check=True)
        subprocess.run(['ar', 'crs', self.path('all.a')] + [self.path('%d.o' % i) for i in range(len(sources))], check=True)
        return self.path('all.a')

    def look(self, *sources):
        with open(self.archived(*sources), 'rb') as f:
            return archive.look(f.read())

    def test_none(self):
        code, constants, found = self.look(LOOP, array('const', range(899)))
        self.assertEqual(found, [])
        self.assertGreater(code, 0)
        self.assertIn(constants - 899 * 8, range(200))  # and what describes the frames of the code

    def test_constant(self):
        code, constants, found = self.look(LOOP, array('const', TABLE))
        self.assertEqual([what.split(', ')[1] for what in found], ['7200 bytes of data with 25 of 25 powers'])
        self.assertIn(constants - 900 * 8, range(200))

    def test_data(self):
        self.assertEqual(len(self.look(array('', TABLE), LOOP)[2]), 1)

    def test_size(self):
        found = self.look(array('const', range(900)), LOOP)[2]
        self.assertEqual([what.split(', ')[1] for what in found], ['7200 bytes of data with 0 of 25 powers'])

    def test_part(self):
        found = self.look(array('const', TABLE[:459]), LOOP)[2]  # those of D up to 51
        self.assertEqual([what.split(', ')[1] for what in found], ['3672 bytes of data with 1 of 25 powers'])

    def test_code(self):
        stores = STORES % '\n'.join('to[%d] = %dUL;' % place for place in enumerate(TABLE))
        code, constants, found = self.look(stores, LOOP)
        self.assertRegex(' '.join(found), r'^\S+ \S+, \d+ bytes of code with 25 of 25 powers$')
        self.assertGreater(code, 900 * 8)

    def test_each_object(self):
        self.assertEqual(len(self.look(array('const', TABLE), LOOP, array('const static', TABLE) + 'const void *at = table;\n')[2]), 2)

    def test_program(self):
        with open(self.path('main.c'), 'w') as f:
            f.write(array('static const', TABLE) + 'int main(int n, char **words) { return (int)table[n]; }\n')
        subprocess.run(['gcc', '-O2', self.path('main.c'), '-o', self.path('program')], check=True)
        with open(self.path('program'), 'rb') as f:
            self.assertEqual(len(archive.look(f.read())[2]), 1)

    def status(self, *paths):
        with contextlib.redirect_stdout(io.StringIO()) as out, contextlib.redirect_stderr(io.StringIO()) as err:
            return archive.main(list(paths)), out.getvalue(), err.getvalue()

    def test_status(self):
        good = self.archived(LOOP)
        status, out, err = self.status(good)
        self.assertEqual((status, err), (0, ''))
        self.assertRegex(out, r'all\.a: \d+ bytes of code, \d+ of constants\n$')
        self.assertEqual(self.status()[0], 1)
        status, out, err = self.status(self.archived(array('const', TABLE)))
        self.assertEqual(status, 1)
        self.assertRegex(err, r'^\S+all\.a: a table in 0\.o \.rodata, 7200 bytes of data with 25 of 25 powers\n$')
        with self.assertRaises(ValueError):
            archive.look(b'text')


if __name__ == '__main__':
    unittest.main()
