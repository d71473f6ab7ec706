#!/usr/bin/env python3
"""Turns tour books between their text form and their binary form, gives the marks of a text, and shows a filed record as text. docs/FORMAT.md describes all.

    tools/book.py to-binary [--count K] book.txt > book.bin     with --count, K stands in front, as the printing program reads it
    tools/book.py to-marks book.txt > marks.bin                 a byte for each choice, 1 where it is marked
    tools/book.py to-text book.bin > book.txt
    tools/book.py record-to-text record.bin

A file named - is standard input. Nothing is judged: whether a book or a record is accepted is for the program to say. What has no
other form is refused with the reason, and for text the number of the line, on standard error, and exit status 1.
"""

import argparse
import re
import sys

LOW, HIGH = -2 ** 31, 2 ** 31 - 1
CLOSED = 200000    # the cost that marks a choice as closed
PLACES = 12
DIGITS = 10    # of the largest number of 32 bits


class Refused(Exception):
    pass


def refuse(line, reason):
    raise Refused('line %d: %s' % (line, reason))


def missing(scale, nexts):
    """The part of the scale that the weights of a choice leave. Where it is 1 or more, the tour may stop after that choice; no word has it."""
    return scale - sum(weight for _, weight in nexts)


# ---- text to words

def whole(text):
    """The number, or None if it has so many digits that it fits no word; Python itself takes some thousands at most."""
    digits = '0' + text.lstrip('-0')
    return None if len(digits) > 1 + DIGITS else -int(digits) if text[0] == '-' else int(digits)


def number(line, text):
    if not re.fullmatch('-?[0-9]+', text):
        refuse(line, '"%s" is not a whole number' % text)
    value = whole(text)
    if value is None or not LOW <= value <= HIGH:
        refuse(line, '%s does not fit 32 bits' % text)
    return value


def fields(line, text, parts):
    """The numbers of a line, whose other words must be those of its form, or of one of its forms. A form that ends with a word in brackets may do without
    it; whether the line has it comes first."""
    forms = text.split(' | ')
    for form in map(str.split, forms):
        if form[-1] == '..':
            return [number(line, part) for part in parts[1:]]
        optional = form[-1][0] == '['
        has = optional and parts[-1] == form[-1][1:-1]
        needed, given = form[:len(form) - optional], parts[:len(parts) - has]
        if len(given) == len(needed) and all(a in ('NUMBER', b) for a, b in zip(needed, given)):
            return [has] * optional + [number(line, part) for a, part in zip(needed, given) if a == 'NUMBER']
    refuse(line, 'expected ' + ' or '.join('"%s"' % form for form in forms))


def columns(choices):
    """The left and the right column of choices, each [cost or reward, [(next, weight)]]."""
    left, right = [], []
    for amount, nexts in choices:
        left += [len(nexts)] + [step for step, _ in nexts]
        right += [amount] + [weight for _, weight in nexts]
    return left, right


class Reader:
    """Takes the lines of a text. Each kind of line has a form in FORMS, or several parted by |, and a method take_; KIND is what the text says, unless it says
    plain words. Lines that stand once and say one number of the whole are kept in `sizes`, the numbers of the lines of plain words in `plain`."""

    KIND, FORMS, SIZES, PLAIN = '', {}, (), ('words',)

    def __init__(self):
        self.sizes, self.begun, self.plain = {}, False, {}

    def due(self, line, name, given, count):
        if given != count:
            refuse(line, '%s %d is written where %s %d is due' % (name, given, name, count))

    def inner(self, line, name, outer, row):
        if not row:
            refuse(line, 'a line "%s" before the first line "%s"' % (name, outer))
        return row[-1]

    def take(self, line, parts):
        name = parts[0]
        if name not in self.FORMS:
            refuse(line, 'unknown word "%s"' % name)
        values = fields(line, self.FORMS[name], parts)
        if name in self.PLAIN:
            self.take_plain(line, name, values)
            return
        if self.plain:
            self.refuse_beside(line, next(iter(self.plain)))
        if name in self.SIZES:
            self.take_size(line, name, *values)
        else:
            getattr(self, 'take_' + name)(line, *values)
        self.begun = True

    def take_plain(self, line, name, values):
        if self.begun:
            self.refuse_beside(line, name)
        self.plain[name] = self.plain.get(name, []) + values

    def refuse_beside(self, line, name):
        """A line of plain words, of this name, and one of another kind stand in one text."""
        refuse(line, 'lines "words" stand in a %s alone' % self.KIND if name == 'words' else 'lines "%s" stand beside lines "words" alone' % name)

    def take_size(self, line, name, value):
        if name in self.sizes:
            refuse(line, 'a second line "%s"' % name)
        self.sizes[name] = value

    def needs(self, line, name, given):
        if not given:
            refuse(line, 'the text ends without a line "%s"' % name)

    def all_words(self, line):
        """The words, once the text has ended before this line."""
        if self.plain:
            self.needs(line, 'words', 'words' in self.plain)
            return self.plain['words']
        for name in self.SIZES:
            self.needs(line, name, name in self.sizes)
        return self.made(line)


class BookReader(Reader):
    """What the lines say so far: stages of posts of choices, each choice [cost, [(next post, weight)]]. And the stops, each (line, stage, choice, weight), and
    the depots, each (line, stage): only the whole text can say whether the weight is the one due, and which stage is the last. And of each choice whether it is
    marked, which no word says."""

    KIND, SIZES, PLAIN = 'book', ('scale',), ('words', 'marks')
    FORMS = {
        'scale': 'scale NUMBER',
        'stage': 'stage NUMBER',
        'post': 'post NUMBER',
        'choice': 'choice NUMBER cost NUMBER [marked] | choice NUMBER closed [marked]',
        'depot': 'depot NUMBER cost NUMBER [marked] | depot NUMBER closed [marked]',
        'next': 'next NUMBER weight NUMBER',
        'stop': 'stop weight NUMBER',
        'words': 'words NUMBER ..',
        'marks': 'marks NUMBER ..',
    }

    def __init__(self):
        super().__init__()
        self.stages, self.posts, self.stops, self.depots, self.marked = [], 0, [], [], []

    def post(self, line, name):
        return self.inner(line, name, 'post', self.inner(line, name, 'stage', self.stages))

    def take_stage(self, line, n):
        self.due(line, 'stage', n, len(self.stages))
        self.stages.append([])

    def take_post(self, line, n):
        stage = self.inner(line, 'post', 'stage', self.stages)
        self.due(line, 'post', n, self.posts)
        stage.append([])
        self.posts += 1

    def take_choice(self, line, marked, n, cost=CLOSED, name='choice'):
        post = self.post(line, name)
        self.due(line, name, n, len(post))
        post.append([cost, []])
        self.marked.append(int(marked))

    def take_depot(self, line, marked, n, cost=CLOSED):
        self.take_choice(line, marked, n, cost, 'depot')
        self.depots.append((line, len(self.stages) - 1))

    def take_next(self, line, step, weight):
        self.inner(line, 'next', 'choice', self.post(line, 'next'))[1].append((step, weight))

    def take_stop(self, line, weight):
        choice = self.inner(line, 'stop', 'choice', self.post(line, 'stop'))
        if self.stops and self.stops[-1][2] is choice:
            refuse(line, 'a second line "stop" in one choice')
        self.stops.append((line, len(self.stages) - 1, choice, weight))

    def take_plain(self, line, name, values):
        super().take_plain(line, name, values)
        for value in values if name == 'marks' else ():
            if not 0 <= value <= 255:
                refuse(line, '%d does not fit a byte' % value)

    def marks(self):
        """The marks of the choices in the order of the book, or beside plain words the numbers that are given for them."""
        return self.plain.get('marks', []) if self.plain else self.marked

    def check_depots(self):
        for line, stage in self.depots:
            if stage < len(self.stages) - 1:
                refuse(line, 'a line "depot" before the last stage')

    def check_stops(self):
        scale = self.sizes['scale']
        for line, stage, (_, nexts), weight in self.stops:
            if stage == len(self.stages) - 1:
                refuse(line, 'a line "stop" at the last stage')
            part = missing(scale, nexts)
            if part < 1:
                refuse(line, 'a line "stop" where no part is missing: the weights add to %d, and the scale is %d' % (scale - part, scale))
            self.due(line, 'stop weight', weight, part)

    def made(self, line):
        self.needs(line, 'stage', self.stages)
        self.check_depots()
        self.check_stops()
        posts = [post for stage in self.stages for post in stage]
        left, right = columns([choice for post in posts for choice in post])
        sizes = [len(stage) for stage in self.stages]
        return [self.sizes['scale'], len(self.stages) - 1, len(left)] + sizes + [len(post) for post in posts] + left + right


def read(data, reader):
    """The words of a text, whose lines the reader takes."""
    line = 0
    for line, raw in enumerate(data.split(b'\n'), 1):
        try:
            text = raw.decode('utf-8')
        except UnicodeDecodeError:
            refuse(line, 'not UTF-8 text')
        parts = text.split('#')[0].split()
        if parts:
            reader.take(line, parts)
    return reader.all_words(line)


def words_of_text(data, kind=BookReader):
    return read(data, kind())


def book_and_marks(data):
    """The words of a book's text, and its marks, a number from 0 to 255 for each choice."""
    reader = BookReader()
    return read(data, reader), reader.marks()


def bytes_of_words(words):
    return b''.join(word.to_bytes(4, 'little', signed=True) for word in words)


def to_binary(data, count=None):
    front = b'' if count is None else count.to_bytes(4, 'little')
    return front + bytes_of_words(words_of_text(data))


def to_marks(data):
    return bytes(book_and_marks(data)[1])


# ---- words to text

def words_of_bytes(data):
    return [int.from_bytes(data[i:i + 4], 'little', signed=True) for i in range(0, len(data), 4)]


def choices_of(counts, left, right):
    """(the choices of each post or state as a reader holds them, the line after them all), or None if the lines do not fit."""
    line, rows = 0, []
    for count in counts:
        row = []
        for _ in range(count):
            if line >= len(left) or left[line] < 0 or line + left[line] >= len(left):
                return None
            end = line + 1 + left[line]
            row.append([right[line], list(zip(left[line + 1:end], right[line + 1:end]))])
            line = end
        if count < 0:
            return None
        rows.append(row)
    return rows, line


def taken_apart(words):
    """(scale, stages as a BookReader holds them), or None if the words do not divide so, whatever the numbers are."""
    if len(words) < 3:
        return None
    scale, last, lines = words[:3]
    sizes = words[3:4 + last] if last >= 0 else []
    if len(sizes) != last + 1 or not sizes or min(sizes) < 0:
        return None
    posts = sum(sizes)
    if lines < 0 or len(words) != 4 + last + posts + 2 * lines:
        return None
    counts = words[4 + last:4 + last + posts]
    found = choices_of(counts, words[4 + last + posts:4 + last + posts + lines], words[4 + last + posts + lines:])
    if found is None or found[1] != lines:
        return None
    starts = [sum(sizes[:n]) for n in range(len(sizes))]
    return scale, [found[0][start:start + size] for start, size in zip(starts, sizes)]


def plain_words(words):
    rows = [words[i:i + 16] for i in range(0, len(words), 16)] or [[]]
    return ''.join(' '.join(['words'] + [str(word) for word in row]) + '\n' for row in rows)


def choice_name(post, later):
    """What a choice of the post is called: at the last stage a depot, where there are several to choose from."""
    return 'choice' if later or len(post) < 2 else 'depot'


def choice_names(stages):
    """What a choice is called at each post."""
    return [choice_name(post, stages[n + 1:]) for n, stage in enumerate(stages) for post in stage]


def choice_line(name, choice, cost):
    return '    %s %d ' % (name, choice) + ('closed' if cost == CLOSED else 'cost %d' % cost)


def next_line(step, weight, first, later):
    """The comment gives the next post's number through the stages, where there is such a post."""
    note = '    # post %d' % (first + step) if later and 0 <= step < len(later[0]) else ''
    return '      next %d weight %d' % (step, weight) + note


def stop_lines(scale, nexts, later):
    """A line wherever one can stand: before the last stage, where a part is missing. Weights below 0 can leave more than 32 bits, which no text has."""
    part = missing(scale, nexts)
    return ['      stop weight %d' % part] if later and 1 <= part <= HIGH else []


def text_of_words(words):
    apart = taken_apart(words)
    if apart is None:
        return plain_words(words)
    scale, stages = apart
    out, first = ['scale %d' % scale], 0
    for n, stage in enumerate(stages):
        out.append('\nstage %d' % n)
        for i, post in enumerate(stage):
            out.append('  post %d' % (first + i))
            for c, (cost, nexts) in enumerate(post):
                out.append(choice_line(choice_name(post, stages[n + 1:]), c, cost))
                out += [next_line(step, weight, first + len(stage), stages[n + 1:]) for step, weight in nexts]
                out += stop_lines(scale, nexts, stages[n + 1:])
        first += len(stage)
    return '\n'.join(out) + '\n'


def whole_words(data):
    if len(data) % 4:
        raise Refused('the file has %d bytes, which is not a multiple of 4' % len(data))
    return words_of_bytes(data)


def to_text(data):
    return text_of_words(whole_words(data))


# ---- records

def decimal(top, bottom):
    """top / bottom in base ten, to 12 places; 'about' says that it is rounded."""
    scaled, rest = divmod(abs(top) * 10 ** PLACES, bottom)
    scaled += 2 * rest >= bottom
    whole, part = divmod(scaled, 10 ** PLACES)
    digits = ('%012d' % part).rstrip('0')
    return ('about ' if rest else '') + ('-' if top < 0 and scaled else '') + str(whole) + ('.' + digits if digits else '')


def plan_lines(rank, cost, whole, plan, names):
    yield '# plan %d: cost %d / %d = %s' % (rank, cost, whole, decimal(cost, whole))
    for post, (choice, name) in enumerate(zip(plan, names)):
        if choice != 255:
            yield '#   post %d %s %d' % (post, name, choice)


def record_to_text(data):
    if len(data) < 12:
        raise Refused('the file has %d bytes, and a record begins with 12' % len(data))
    w, most, k = (int.from_bytes(data[i:i + 4], 'little') for i in (0, 4, 8))
    if len(data) < 12 + 4 * w:
        raise Refused('the record says that its book has %d words, and only %d bytes follow' % (w, len(data) - 12))
    words = words_of_bytes(data[12:12 + 4 * w])
    apart = taken_apart(words)
    if apart is None:
        raise Refused('the words of the book do not divide into stages, posts and choices')
    scale, stages = apart
    whole, posts, at = scale ** (len(stages) - 1), sum(len(stage) for stage in stages), 12 + 4 * w
    if whole < 1:
        raise Refused('D^H is %d' % whole)
    if len(data) != at + 8 * k + k * posts:
        raise Refused('after the book there are %d bytes, and %d plans of %d posts take %d' % (len(data) - at, k, posts, 8 * k + k * posts))
    names = choice_names(stages)
    out = ['# a record: a book of %d words, K = %d, k = %d' % (w, most, k), '']
    out.append(text_of_words(words))
    for j in range(k):
        cost = int.from_bytes(data[at + 8 * j:at + 8 * j + 8], 'little', signed=True)
        start = at + 8 * k + j * posts
        out += plan_lines(j + 1, cost, whole, data[start:start + posts], names)
    return '\n'.join(out) + '\n'


# ---- the command

def unsigned(text):
    value = whole(text) if re.fullmatch('[0-9]+', text) else None
    if value is None or value >= 2 ** 32:
        raise argparse.ArgumentTypeError('%s is not a number of 32 bits without a sign' % text)
    return value


def arguments(what, *names):
    """A parser with a command of each name, which takes a file."""
    parser = argparse.ArgumentParser(description=what)
    commands = parser.add_subparsers(dest='command', required=True)
    found = {name: commands.add_parser(name) for name in names}
    for command in found.values():
        command.add_argument('file')
    return parser, found


def run(given, turn):
    """Writes what `turn` makes of the file's bytes, text or bytes. The exit status."""
    try:
        if given.file == '-':
            data = sys.stdin.buffer.read()
        else:
            with open(given.file, 'rb') as f:
                data = f.read()
        out = turn(data)
        sys.stdout.buffer.write(out if isinstance(out, bytes) else out.encode())
    except (Refused, OSError) as reason:
        print('%s: %s' % (given.file, getattr(reason, 'strerror', None) or reason), file=sys.stderr)
        return 1
    return 0


def main():
    parser, commands = arguments('Tour books and records as text.', 'to-binary', 'to-marks', 'to-text', 'record-to-text')
    commands['to-binary'].add_argument('--count', type=unsigned, metavar='K')
    given = parser.parse_args()
    turns = {'to-binary': lambda data: to_binary(data, given.count), 'to-marks': to_marks, 'to-text': to_text, 'record-to-text': record_to_text}
    return run(given, turns[given.command])


if __name__ == '__main__':
    sys.exit(main())
