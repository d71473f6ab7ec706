#!/usr/bin/env python3
"""Turns planners' tables between their text form and their binary form. docs/FORMAT.md describes both.

    tools/table.py to-binary table.txt > table.bin
    tools/table.py to-text table.bin > table.txt

A file named - is standard input. As with a book (tools/book.py), nothing is judged, and what has no other form is refused with the reason, and for text the
number of the line, on standard error, and exit status 1.
"""

import sys

import book


class TableReader(book.Reader):
    """What the lines say so far: the states, each [choices, closing reward or None], each choice [reward, [(next state, weight)]]."""

    KIND, SIZES = 'table', ('scale', 'horizon', 'first')
    FORMS = {
        'scale': 'scale NUMBER',
        'horizon': 'horizon NUMBER',
        'first': 'first state NUMBER',
        'state': 'state NUMBER',
        'choice': 'choice NUMBER reward NUMBER',
        'next': 'next NUMBER weight NUMBER',
        'closing': 'closing reward NUMBER',
        'words': 'words NUMBER ..',
    }

    def __init__(self):
        super().__init__()
        self.states = []

    def state(self, line, name):
        """The state that a line belongs to; its last line is that of its closing reward."""
        found = self.inner(line, name, 'state', self.states)
        if found[1] is not None:
            book.refuse(line, 'a second line "closing" in one state' if name == 'closing' else 'a line "%s" after the line "closing" of its state' % name)
        return found

    def check_closing(self, line):
        if self.states and self.states[-1][1] is None:
            book.refuse(line, 'state %d ends without a line "closing"' % (len(self.states) - 1))

    def take_state(self, line, n):
        self.check_closing(line)
        self.due(line, 'state', n, len(self.states))
        self.states.append([[], None])

    def take_choice(self, line, n, reward):
        choices = self.state(line, 'choice')[0]
        self.due(line, 'choice', n, len(choices))
        choices.append([reward, []])

    def take_next(self, line, step, weight):
        self.inner(line, 'next', 'choice', self.state(line, 'next')[0])[1].append((step, weight))

    def take_closing(self, line, reward):
        self.state(line, 'closing')[1] = reward

    def made(self, line):
        self.needs(line, 'state', self.states)
        self.check_closing(line)
        left, right = book.columns([choice for choices, _ in self.states for choice in choices] + [[reward, []] for _, reward in self.states])
        sizes = [self.sizes['scale'], self.sizes['horizon'], len(self.states), self.sizes['first'], len(left)]
        return sizes + [len(choices) for choices, _ in self.states] + left + right


def words_of_text(data):
    return book.words_of_text(data, TableReader)


def to_binary(data):
    return book.bytes_of_words(words_of_text(data))


def taken_apart(words):
    """The states as a TableReader holds them, or None if the words do not divide so, whatever the numbers are."""
    if len(words) < 5 or words[2] < 1 or words[4] < 0 or len(words) != 5 + words[2] + 2 * words[4]:
        return None
    states, lines, at = words[2], words[4], 5 + words[2]
    left, right = words[at:at + lines], words[at + lines:]
    found = book.choices_of(words[5:at], left, right)
    if found is None or found[1] + states != lines or any(left[found[1]:]):
        return None
    return [list(state) for state in zip(found[0], right[found[1]:])]


def text_of_words(words):
    states = taken_apart(words)
    if states is None:
        return book.plain_words(words)
    out = ['scale %d' % words[0], 'horizon %d' % words[1], 'first state %d' % words[3]]
    for n, (choices, closing) in enumerate(states):
        out.append('\nstate %d' % n)
        for c, (reward, nexts) in enumerate(choices):
            out.append('  choice %d reward %d' % (c, reward))
            out += ['    next %d weight %d' % (step, weight) for step, weight in nexts]
        out.append('  closing reward %d' % closing)
    return '\n'.join(out) + '\n'


def to_text(data):
    return text_of_words(book.whole_words(data))


def main():
    given = book.arguments('Planners\' tables as text.', 'to-binary', 'to-text')[0].parse_args()
    return book.run(given, {'to-binary': to_binary, 'to-text': to_text}[given.command])


if __name__ == '__main__':
    sys.exit(main())
