#!/usr/bin/env python3
"""Tests of tools/table.py: round trips over random tables, every message, and the table of docs/FORMAT.md. Run: python3 tests/test_table_text.py"""

import os
import random
import re
import subprocess
import sys
import tempfile
import unittest

HERE = os.path.dirname(os.path.abspath(__file__))
sys.path[:0] = [HERE, os.path.join(HERE, '..', 'tools')]

import book
import reference as ref
import rewards
import table
import tables
from tables import BY_HAND
from test_tables import BOOK_BY_HAND, DAYS_BY_HAND

TOOL = os.path.join(HERE, '..', 'tools', 'table.py')
TEXT = '''scale 2
horizon 2
first state 1

state 0
  choice 0 reward 3
    next 0 weight 2
  closing reward 4

state 1
  choice 0 reward 5
    next 0 weight 1
    next 1 weight 1
  choice 1 reward -1
    next 1 weight 2
  closing reward -7
'''


def drawn(count):
    """Good tables, tables whose book is refused, tables with faults, and words that are no table."""
    rng = random.Random('table text')
    for _ in range(count):
        for shapes in (tables.GOOD, tables.REFUSED):
            words = rng.choice(shapes)(rng)
            yield words
            yield tables.broken(rng, words, rng.sample(tables.BREAKS_25 + tables.BREAKS_26, rng.randint(1, 3)))
        yield tables.wild(rng)
    yield tables.longest(rng)


class RoundTrips(unittest.TestCase):
    def test_by_hand(self):
        self.assertEqual(table.words_of_text(TEXT.encode()), BY_HAND)
        self.assertEqual(table.text_of_words(BY_HAND), TEXT)

    def test_every_table(self):
        seen = set()
        for words in drawn(200):
            data = book.bytes_of_words(words)
            text = table.to_text(data)
            self.assertEqual(table.to_binary(text.encode()), data)
            self.assertEqual('words' in text, table.taken_apart(words) is None)
            seen.add((rewards.table_no(words), 'words' in text))
        self.assertEqual(seen, {(0, False), (25, False), (25, True), (26, False), (26, True)})

    def test_given_tables_have_lines(self):
        """Every table that passes 25 and 26 is written as states and choices, with a line for each of its lines and states."""
        for words in drawn(100):
            if rewards.table_no(words) == 0:
                names = [line.split()[0] for line in table.text_of_words(words).split('\n') if line]
                self.assertEqual((names.count('state'), names.count('closing')), (words[2], words[2]))
                self.assertEqual(names.count('choice') + names.count('next') + names.count('closing'), words[4])

    def test_order_of_lines(self):
        """Sizes may stand anywhere; comments, indents and empty lines say nothing."""
        lines = [line.strip() for line in TEXT.split('\n') if line]
        self.assertEqual(table.words_of_text('\n\t# x\n'.join(lines[3:] + lines[:3]).encode()), BY_HAND)

    def test_no_words(self):
        self.assertEqual(table.to_text(b''), 'words\n')
        self.assertEqual(table.to_binary(b'words\n'), b'')

    def test_left_of_a_closing_line(self):
        """A closing line without its 0 has no line of its own in text."""
        words = list(BY_HAND)
        words[5 + 2 + 9 - 1] = 1
        self.assertTrue(table.text_of_words(words).startswith('words 2 2 2 1 9 1 2 '))

    def test_no_lines_below(self):
        """An r of 0, which 26 refuses, and a state without choices have a text."""
        for choices in ([[(5, [])]], [[]]):
            words = tables.build(2, 1, 0, choices, [3])
            self.assertNotIn('words', table.text_of_words(words))
            self.assertEqual(rewards.table_no(words), 26)


STATE = 'scale 2\nhorizon 1\nfirst state 0\nstate 0\n'
MESSAGES = [
    ('', 'line 1: the text ends without a line "scale"'),
    ('scale 2', 'line 1: the text ends without a line "horizon"'),
    ('scale 2\nhorizon 1\n', 'line 3: the text ends without a line "first"'),
    ('scale 2\nhorizon 1\nfirst state 0', 'line 3: the text ends without a line "state"'),
    (STATE, 'line 5: state 0 ends without a line "closing"'),
    (STATE + 'choice 0 reward 1\nstate 1', 'line 6: state 0 ends without a line "closing"'),
    (STATE + 'closing reward 1\nstate 0', 'line 6: state 0 is written where state 1 is due'),
    (STATE + 'closing reward 1\nclosing reward 1', 'line 6: a second line "closing" in one state'),
    (STATE + 'closing reward 1\nchoice 0 reward 1', 'line 6: a line "choice" after the line "closing" of its state'),
    (STATE + 'choice 0 reward 1\nclosing reward 1\nnext 0 weight 2', 'line 7: a line "next" after the line "closing" of its state'),
    (STATE + 'next 0 weight 2', 'line 5: a line "next" before the first line "choice"'),
    (STATE + 'choice 1 reward 1', 'line 5: choice 1 is written where choice 0 is due'),
    (STATE + 'choice 0 cost 1', 'line 5: expected "choice NUMBER reward NUMBER"'),
    (STATE + 'choice 0 reward x', 'line 5: "x" is not a whole number'),
    (STATE + 'choice 0 reward 2147483648', 'line 5: 2147483648 does not fit 32 bits'),
    (STATE + 'choice 0 reward 1\nnext 0 2', 'line 6: expected "next NUMBER weight NUMBER"'),
    (STATE + 'closing 1', 'line 5: expected "closing reward NUMBER"'),
    (STATE + 'post 0', 'line 5: unknown word "post"'),
    ('state 1', 'line 1: state 1 is written where state 0 is due'),
    ('choice 0 reward 1', 'line 1: a line "choice" before the first line "state"'),
    ('next 0 weight 1', 'line 1: a line "next" before the first line "state"'),
    ('closing reward 1', 'line 1: a line "closing" before the first line "state"'),
    ('first 0', 'line 1: expected "first state NUMBER"'),
    ('scale', 'line 1: expected "scale NUMBER"'),
    ('horizon 1\nhorizon 1', 'line 2: a second line "horizon"'),
    ('first state 0\nfirst state 0', 'line 2: a second line "first"'),
    ('scale 2\nscale 2', 'line 2: a second line "scale"'),
    ('scale 2\nwords 1', 'line 2: lines "words" stand in a table alone'),
    ('state 0\nwords 1', 'line 2: lines "words" stand in a table alone'),
    ('words 1\nscale 2', 'line 2: lines "words" stand in a table alone'),
    ('words 1 x', 'line 1: "x" is not a whole number'),
]


class Messages(unittest.TestCase):
    def test_text(self):
        for text, reason in MESSAGES:
            with self.assertRaises(book.Refused, msg=text) as caught:
                table.words_of_text(text.encode())
            self.assertEqual(str(caught.exception), reason)

    def test_not_utf8(self):
        with self.assertRaises(book.Refused) as caught:
            table.words_of_text(b'scale 2\n# \xff\n')
        self.assertEqual(str(caught.exception), 'line 2: not UTF-8 text')

    def test_odd_length(self):
        with self.assertRaises(book.Refused) as caught:
            table.to_text(b'12345')
        self.assertEqual(str(caught.exception), 'the file has 5 bytes, which is not a multiple of 4')


class Example(unittest.TestCase):
    def test_two_states(self):
        """The example of source document 001: its answer is a12, with a reward of 10."""
        with open(os.path.join(HERE, '..', 'examples', 'two_states.txt'), 'rb') as f:
            words = table.words_of_text(f.read())
        self.assertEqual(words, tables.two_states())
        found = rewards.Table(words)
        best = max(rewards.policies(found), key=lambda policy: rewards.expected_reward(found, policy))
        self.assertEqual((best[0], rewards.expected_reward(found, best)), (1, 10 * 10))


class Document(unittest.TestCase):
    """The worked example of docs/FORMAT.md is the table by hand, its book, its days and its text."""

    def setUp(self):
        with open(os.path.join(HERE, '..', 'docs', 'FORMAT.md'), encoding='utf-8') as f:
            self.text = f.read()

    def numbers(self, pattern):
        return [int(n) for n in re.findall(r'-?\d+', re.search(pattern, self.text, re.S)[1])]

    def test_words(self):
        self.assertEqual(self.numbers(r'The table has the words (.*?)\.\n'), BY_HAND)
        self.assertEqual(self.numbers(r'The book has the words (.*?)\.\n'), BOOK_BY_HAND)

    def test_days(self):
        part = re.search(r'### The policies and their rewards\n(.*?)\n##', self.text, re.S)[1]
        rows = re.findall(r'^\| ([\d ]+) \| ([^|]+) \| (-?\d+) \|$', part, re.M)
        found = {}
        for policy, sum_, total in rows:
            self.assertEqual(eval(sum_.replace('×', '*')), int(total))
            days = [tuple(eval(side) for side in day.split('×')) for day in re.findall(r'\d+ × \([^)]*\)', sum_)]
            found[tuple(int(c) for c in policy.split())] = (sorted(days), int(total))
        self.assertEqual(found, {policy: (sorted(days), total) for policy, (days, total) in DAYS_BY_HAND.items()})

    def test_page(self):
        lines = ['%d %d %s' % (j + 1, -cost, ' '.join('-' if c == 255 else str(c) for c in plan))
                 for j, (cost, plan) in enumerate(ref.ranking(BOOK_BY_HAND, 4))]
        self.assertIn('\n    4 of 4, scale 4\n' + ''.join('    %s\n' % line for line in lines), self.text)

    def test_text_form(self):
        self.assertIn('```\n%s```' % TEXT, self.text)


class Command(unittest.TestCase):
    def run_tool(self, *args, data=b''):
        return subprocess.run([sys.executable, TOOL] + list(args), input=data, capture_output=True)

    def test_ways(self):
        with tempfile.TemporaryDirectory() as folder:
            path = os.path.join(folder, 'table.txt')
            with open(path, 'w') as f:
                f.write(TEXT)
            done = self.run_tool('to-binary', path)
        self.assertEqual((done.returncode, done.stdout, done.stderr), (0, book.bytes_of_words(BY_HAND), b''))
        back = self.run_tool('to-text', '-', data=done.stdout)
        self.assertEqual((back.returncode, back.stdout), (0, TEXT.encode()))

    def test_refusals(self):
        for command, data, message in (('to-binary', b'scale 2\nplace 0', b'-: line 2: unknown word "place"\n'),
                                       ('to-text', b'123', b'-: the file has 3 bytes, which is not a multiple of 4\n')):
            done = self.run_tool(command, '-', data=data)
            self.assertEqual((done.returncode, done.stdout, done.stderr), (1, b'', message))
        self.assertEqual(self.run_tool('to-text', 'no-such-file').returncode, 1)
        self.assertEqual(self.run_tool('record-to-text', '-').returncode, 2)


if __name__ == '__main__':
    unittest.main()
