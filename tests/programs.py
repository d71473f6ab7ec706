#!/usr/bin/env python3
"""The six programs in target/bin: kbest and kbest_file, which read K and a book, kbest_page, which reads a record, kbest_find, which reads a plan, K and a
book, kbest_limit, which reads m, marks, K and a book, and kbest_table, which reads a planners' table; compared with reference.py and rewards.py.

    tests/programs.py [COUNT] [SEED]     the edges of what they read, then random inputs to each, by default 300 of seed 1
    tests/programs.py store              writes the stored input and output of their crates; the same on every run

Edges and some random inputs come through a slow pipe too, in pieces, since one read may give only a part. Stops at the first difference with the input as
hexadecimal digits, what is expected and what came; exit status 1.
"""

import contextlib
import os
import random
import subprocess
import sys
import time

import books
import cases
import kinds
import reference as ref
import rewards
import search
import tables
import tours
from machine import book_bytes, little

ROOT = os.path.join(os.path.dirname(os.path.abspath(__file__)), '..')
ANSWERS = {1: b'rank', 2: b'more', 3: b'post'}
NONE = {2: b'none in the list\n', 3: b'none in the book\n'}


def plan_line(data):
    """The length of a plan in one byte, the plan, then K and a book: the line that says where the plan stands."""
    length = data[0] if data else 0
    no, k, words = ref.asked(data[1 + length:])
    if no:
        return ref.refusal(no)
    no, answer, value = ref.find(words, k, data[1:1 + length])
    return ref.refusal(no) if no else b'%s %d\n' % (ANSWERS[answer], value)


def limit_line(data):
    """m in one byte, how many marks there are in two, the marks, then K and a book: the line that says which listed plan is the first that keeps the limit."""
    count = int.from_bytes(data[1:3], 'little')
    no, k, words = ref.asked(data[3 + count:])
    if no:
        return ref.refusal(no)
    no, answer, rank = ref.limit(words, k, data[3:3 + count], data[0])
    return ref.refusal(no) if no else NONE.get(answer, b'rank %d\n' % rank)


PROGRAMS = {'kbest': (ref.page, kinds.page_input), 'kbest_file': (ref.filed, kinds.page_input), 'kbest_page': (ref.record_page, kinds.record_input),
            'kbest_find': (plan_line, kinds.find_input), 'kbest_limit': (limit_line, kinds.limit_input),
            'kbest_table': (rewards.table_book, kinds.table_input)}
SLOWLY = 10    # one random input in so many
PIECES, PAUSE = 12, 0.002


def program(name):
    return os.path.join(ROOT, 'target', 'bin', name)


def ended(child, data=None):
    """All that a program writes; an end that is none is told with it."""
    out = child.communicate(data, timeout=120)[0]
    return out + (b'ended with status %d\n' % child.returncode if child.returncode else b'')


def start(name):
    return subprocess.Popen([program(name)], stdin=subprocess.PIPE, stdout=subprocess.PIPE, bufsize=0)


def run(name, data):
    with start(name) as child:
        return ended(child, data)


def run_slowly(name, data):
    """The input in pieces, each written after the program has waited for it."""
    size = max(1, len(data) // PIECES)
    with start(name) as child:
        with contextlib.suppress(BrokenPipeError):    # the program reads no more
            for at in range(0, len(data), size):
                child.stdin.write(data[at:at + size])
                time.sleep(PAUSE)
        return ended(child)


# ---- random input

def differs(name, seed, n):
    """Input n of a seed: None, or (input, expected, got)."""
    answer, draw = PROGRAMS[name]
    data = draw(random.Random('%s %s:%d' % (name, seed, n)))
    expected, got = answer(data), (run if n % SLOWLY else run_slowly)(name, data)
    return None if expected == got else (data, expected, got)


def report(name, what, found):
    data, expected, got = found
    print('%s: %s differs; the input is\n%s\nexpected\n%s\ngot\n%s' % (name, what, data.hex(), expected.decode('latin-1'), got.decode('latin-1')))


# ---- the edges

def longest_input():
    """K = 64 and a book of 4,172 words: all that can be accepted, one word less than is read."""
    return little(64, 4) + book_bytes(cases.largest())


def longest_record(words):
    with search.instead_of_enumeration():
        return ref.record(words, 64)


def input_edges():
    """(what, input)"""
    longest, a = longest_input(), little(3, 4) + book_bytes(tours.book_a())
    yield 'the longest book', longest
    yield 'the longest book with stops', little(64, 4) + book_bytes(cases.largest_with_stops())
    yield 'the longest book with closed choices', little(64, 4) + book_bytes(cases.largest_with_closed())
    yield 'the longest book without a plan', little(64, 4) + book_bytes(cases.largest_without_plan())
    yield from (('%d bytes after the longest book' % n, longest + bytes(n)) for n in (1, 2, 3, 4, 5, 6, 7, 8, 70000))
    yield from (('the first %d bytes of A' % n, a[:n]) for n in (*range(9), len(a) - 1))
    yield from (('%d bytes after A' % n, a + bytes(n)) for n in range(5))


def record_edges():
    longest, a = longest_record(cases.largest()), ref.record(tours.book_a(), 3)
    places = {'W': 0, 'K': 4, 'k': 8, 'a word of the book': 12, 'a cost': 12 + 4 * 4172, 'a plan': 12 + 4 * 4172 + 8 * 64, 'the last byte': len(longest) - 1}
    yield 'the longest record', longest
    yield 'the longest record of a book with stops', longest_record(cases.largest_with_stops())
    yield 'the longest record of a book with closed choices', longest_record(cases.largest_with_closed())
    yield 'the longest book without a plan', longest_record(cases.largest_without_plan())
    yield from (('%d bytes after the longest record' % n, longest + bytes(n)) for n in (1, 2, 70000))
    yield 'the longest record without its last byte', longest[:-1]
    yield from (('the longest record, %s changed' % what, longest[:at] + bytes([longest[at] ^ 1]) + longest[at + 1:]) for what, at in places.items())
    yield from (('the first %d bytes of the record of A' % n, a[:n]) for n in (0, 1, 11, 12, 13, len(a) - 1, len(a)))
    yield 'a byte after the record of A', a + b'\0'


def with_plan(plan, data):
    return bytes([len(plan)]) + bytes(plan) + data


def first_and_later(words):
    """The first and the last plan of the longest list, and one that takes the last open choice everywhere."""
    with search.instead_of_enumeration():
        listed = ref.ranking(words, 64)
    book, later, reached = ref.Book(words), [], {0}
    for post in range(book.posts):
        later.append(max(c for c in range(book.counts[post]) if book.is_open(post, c)) if post in reached else 255)
        if post in reached:
            reached.update(step for step, _ in book.next_posts(post, later[post]))
    return listed[0][1], listed[-1][1], later


def tied_at_the_last_post():
    """A book of 64 posts and two plans of one cost, which differ at post 63 alone."""
    sizes = [1, 7] + [8] * 7
    later = [[(0, [(7, 1)])] for _ in range(sum(sizes[1:-1]))] + [[(0, [])]] * 7 + [[(0, []), (0, [])]]
    return books.build(1, sizes, [[(0, [(6, 1)])]] + later)


def find_edges():
    longest, a = longest_input(), little(3, 4) + book_bytes(tours.book_a())
    tied = tied_at_the_last_post()
    for k in (1, 2):
        yield from (('two plans of one cost, K = %d' % k, with_plan(plan, little(k, 4) + book_bytes(tied))) for _, plan in ref.in_order(tuple(tied)))
    for what, words in (('the longest book', cases.largest()), ('the longest book with stops', cases.largest_with_stops())):
        for plan in first_and_later(words):
            yield from (('%s, K = %d' % (what, k), with_plan(plan, little(k, 4) + book_bytes(words))) for k in (1, 64))
    yield 'the longest book without a plan', with_plan([0] * 64, little(64, 4) + book_bytes(cases.largest_without_plan()))
    for length in (0, 64, 255):
        yield from (('%d bytes after the longest book and a plan of %d' % (n, length), with_plan([0] * length, longest + bytes(n)))
                    for n in (0, 1, 2, 3, 4, 5, 6, 7, 8, 70000))
    for plan in ((1, 0, 255), (0, 0, 0), (0, 0, 255)):
        yield from (('%s in A, K = %d' % (plan, k), with_plan(plan, little(k, 4) + book_bytes(tours.book_a()))) for k in (0, 1, 2, 3, 65))
    whole = with_plan((0, 0, 0), a)
    yield from (('the first %d bytes of a plan and A' % n, whole[:n]) for n in (*range(13), len(whole) - 1))
    yield from (('%d bytes after A' % n, whole + bytes(n)) for n in range(1, 5))


def with_limit(m, marks, data):
    return bytes([m]) + little(len(marks), 2) + bytes(marks) + data


def choices(words):
    return sum(ref.Book(words).counts)


def limit_edges():
    longest, a = longest_input(), little(3, 4) + book_bytes(tours.book_a())
    for what, words in (('the longest book', cases.largest()), ('the longest book with stops', cases.largest_with_stops())):
        for m, mark in ((0, 0), (8, 1), (9, 1)):
            yield from (('%s, K = %d, every mark %d and m = %d' % (what, k, mark, m), with_limit(m, [mark] * choices(words), little(k, 4) + book_bytes(words)))
                        for k in (1, 64))
    yield 'the longest book without a plan', with_limit(9, [], little(64, 4) + book_bytes(cases.largest_without_plan()))
    for count in (0, 456, 65535):
        yield from (('%d bytes after the longest book and %d marks' % (n, count), with_limit(10, [1] * count, longest + bytes(n)))
                    for n in (0, 1, 2, 3, 4, 5, 6, 7, 8, 70000))
    for marks in ((0, 1, 0, 0), (0, 1, 1, 0), (1, 1, 0, 0), (1, 1, 1, 1), (0, 1, 0), (0, 1, 0, 0, 0), (0, 2, 0, 0), (0, 1, 0, 255), ()):
        yield from (('marks %s in A, m = %d and K = %d' % (marks, m, k), with_limit(m, marks, little(k, 4) + book_bytes(tours.book_a())))
                    for m in (0, 1, 2, 9, 10, 255) for k in (0, 1, 2, 3, 65))
    whole = with_limit(1, (0, 1, 1, 0), a)
    yield from (('the first %d bytes of marks and A' % n, whole[:n]) for n in (*range(16), len(whole) - 1))
    yield from (('%d bytes after A' % n, whole + bytes(n)) for n in range(1, 5))


def longest_table():
    """A table of 4,117 words, all that can be accepted, one word less than is read."""
    return book_bytes(tables.longest(random.Random('longest')))


def table_edges():
    longest, small = longest_table(), book_bytes(cases.TABLE)
    yield 'the longest table', longest
    yield from (('%d bytes after the longest table' % n, longest + bytes(n)) for n in (1, 2, 3, 4, 5, 6, 7, 8, 70000))
    yield 'the longest table, with H 8', book_bytes(cases.with_words(ref.words_of(longest), (1, 8)))
    yield 'the longest book of a table', book_bytes(tables.build(1, 8, 0, [[(0, [(0, 1)] + [(0, 0)] * 2045)]], [0]))
    yield from (('a book of %d lines' % lines, book_bytes(cases.table_of_lines(first, 285))) for first, lines in ((46, 2048), (47, 2049)))
    yield from (('a book of %d posts' % (1 + n * h), book_bytes(cases.one_row(n, stages=h))) for n, h in ((9, 7), (8, 8)))
    yield from (('the first %d bytes of a table' % n, small[:n]) for n in (*range(9), 19, 20, 21, len(small) - 1, len(small)))
    yield from (('%d bytes after a table' % n, small + bytes(n)) for n in range(1, 5))


EDGES = {'kbest': input_edges, 'kbest_file': input_edges, 'kbest_page': record_edges, 'kbest_find': find_edges, 'kbest_limit': limit_edges,
         'kbest_table': table_edges}


def edge_differs(name, data):
    """As differs, at once and through a slow pipe."""
    expected = PROGRAMS[name][0](data)
    for got in (run(name, data), run_slowly(name, data)):
        if expected != got:
            return data, expected, got


def edges():
    """(program, what, input)"""
    for name in PROGRAMS:
        yield from ((name, what, data) for what, data in EDGES[name]())


# ---- the stored input and output

def stored():
    """For each crate its input and output. If kbest or kbest_file read a word less it would accept the book, and if it counted one byte more it would say 1;
    if kbest_page read a byte less it would accept the record, and if kbest_table read a word less the table. With a word less kbest_find would come to 17, and
    kbest_limit to 29."""
    inputs = {'kbest': longest_input() + bytes(5), 'kbest_file': longest_input() + bytes(5), 'kbest_page': longest_record(cases.largest()) + bytes(1),
              'kbest_find': with_plan([0] * 255, longest_input() + bytes(5)), 'kbest_limit': with_limit(9, [1] * 65535, longest_input() + bytes(5)),
              'kbest_table': longest_table() + bytes(5)}
    with search.instead_of_enumeration():
        return {name: (data, PROGRAMS[name][0](data)) for name, data in inputs.items()}


def store():
    for name, parts in stored().items():
        folder = os.path.join(ROOT, 'crates', name)
        os.makedirs(folder, exist_ok=True)
        for part, content in zip(('stdin', 'stdout'), parts):
            with open(os.path.join(folder, part), 'wb') as f:
                f.write(content)


def compare_edges():
    """How many are equal, or None after the first that differs. The longest book has too many plans to enumerate, so search.py gives the lists."""
    asked = 0
    with search.instead_of_enumeration():
        for name, what, data in edges():
            found = edge_differs(name, data)
            if found:
                return report(name, what, found)
            asked += 1
    return asked


def compare(seed, numbers):
    """Random inputs to each program: are all equal?"""
    for name in PROGRAMS:
        for n in numbers:
            found = differs(name, seed, n)
            if found:
                report(name, 'input %d of seed %s' % (n, seed), found)
                return False
    return True


def main(args):
    if args[:1] == ['store']:
        return store()
    count, seed = int(args[0]) if args else 300, args[1] if len(args) > 1 else '1'
    asked = compare_edges()
    if asked is None or not compare(seed, range(count)):
        return 1
    print('%d edges and %d random inputs to each of %d programs are equal' % (asked, count, len(PROGRAMS)))


if __name__ == '__main__':
    sys.exit(main(sys.argv[1:]))
