"""The planners' tables of request 2.5, word by word and without any search: the questions 25 to 27, the book that a table gives, and the table's own policies
and days, which are enumerated without the book.

Written from the documents alone. It shares nothing with the proved program. Words below are those of the documents.
"""

import itertools

import reference as ref

LONGEST_TABLE = 4117    # 5 + 16 + 2 × 2,048 words
LONGEST_MADE = 32775    # words of the longest book that a table gives, one that is refused: n = 1, H = 8 and L = 2,048


def columns(words):
    """The choice counts, the left and the right column of a table whose sizes are given."""
    states, lines = words[2], words[4]
    at = 5 + states
    return words[5:at], words[at:at + lines], words[at + lines:at + 2 * lines]


class Table:
    """A table that passes 25 and 26, taken apart: choices[state] is a list of (reward, [(next state, weight)]), closing[state] the closing reward."""

    def __init__(self, words):
        self.scale, self.stages, self.states, self.first, self.lines = words[:5]
        counts, left, right = columns(words)
        self.choices, line = [], 0
        for count in counts:
            here = []
            for _ in range(count):
                end = line + 1 + left[line]
                here.append((right[line], list(zip(left[line + 1:end], right[line + 1:end]))))
                line = end
            self.choices.append(here)
        self.closing = right[line:]


# ---- the questions

def sizes_given(words):
    """25: sizes missing, n not 1 to 16, the first state not 0 to n - 1, D, H or L not allowed, or length not 5 + n + 2L."""
    if len(words) < 5:
        return False
    scale, stages, states, first, lines = words[:5]
    return (1 <= states <= 16 and 0 <= first < states and 1 <= scale <= 100 and 1 <= stages <= 8 and 1 <= lines <= 2048
            and len(words) == 5 + states + 2 * lines)


def reward_allowed(reward):
    return -100000 <= reward <= 100000


def lines_given(words):
    """26, of a table whose sizes are given: a choice count not 1 to 8, an r below 1, lines that don't fit or don't use exactly L, a choice whose weights don't
    add to D, a closing line without its 0, or a reward beyond 100,000 either way. Of the weights the sum alone is judged, with their signs."""
    scale, states, lines = words[0], words[2], words[4]
    counts, left, right = columns(words)
    if any(not 1 <= count <= 8 for count in counts):
        return False
    line = 0
    for _ in range(sum(counts)):
        if line >= lines or left[line] < 1 or line + 1 + left[line] > lines:
            return False
        end = line + 1 + left[line]
        if sum(right[line + 1:end]) != scale or not reward_allowed(right[line]):
            return False
        line = end
    return line + states == lines and not any(left[line:]) and all(reward_allowed(reward) for reward in right[line:])


def table_no(words):
    if not sizes_given(words):
        return 25
    return 0 if lines_given(words) else 26


# ---- the book

def book_of(words):
    """The book of a table that passes 25 and 26: the first state alone at stage 0 and all n at each later stage; each reward is negated."""
    table = Table(words)
    posts = [table.choices[table.first]]
    for _ in range(1, table.stages):
        posts += table.choices
    posts += [[(reward, [])] for reward in table.closing]
    left, right = [], []
    for choices in posts:
        for reward, lines in choices:
            left += [len(lines)] + [step for step, _ in lines]
            right += [-reward] + [weight for _, weight in lines]
    sizes = [1] + [table.states] * table.stages
    return [table.scale, table.stages, len(left)] + sizes + [len(choices) for choices in posts] + left + right


def convert(words, lent):
    """(number, length in words). The list that stands for the lent slice is changed in place."""
    no = table_no(words)
    if no:
        return no, 0
    book = book_of(words)
    if len(lent) < len(book):
        return 27, 0
    no = ref.check(book)
    if no:
        return no, 0
    lent[:len(book)] = book
    return 0, len(book)


# ---- policies, days and rewards of the table itself

def policies(table):
    """All policies: the first state is reached at stage 0, and with a state all next states of its chosen choice are at the next stage. A policy has a byte for
    the first state and one for each of the n states of every later stage: where the state is reached its choice, or 0 for its closing, else 255."""
    def grow(stage, chosen, reached):
        if stage == table.stages:
            yield chosen + tuple(0 if state in reached else 255 for state in range(table.states))
            return
        states = [table.first] if stage == 0 else range(table.states)
        for row in itertools.product(*(range(len(table.choices[state])) if state in reached else [255] for state in states)):
            made = dict(zip(states, row))
            yield from grow(stage + 1, chosen + row, {step for state in reached for step, _ in table.choices[state][made[state]][1]})
    return grow(0, (), {table.first})


def days(table, policy):
    """All days of a policy, each as (weight, reward): one state a stage, from the first state, each next state on a line of the choice made. Its weight is the
    product of those lines' weights, its reward the sum of the choices' rewards and the closing reward."""
    def walk(stage, state, weight, reward):
        if stage == table.stages:
            yield weight, reward + table.closing[state]
            return
        choice = policy[1 + (stage - 1) * table.states + state if stage else 0]
        more, lines = table.choices[state][choice]
        for step, part in lines:
            yield from walk(stage + 1, step, weight * part, reward + more)
    return walk(0, table.first, 1, 0)


def expected_reward(table, policy):
    """The expected total reward times D^H."""
    return sum(weight * reward for weight, reward in days(table, policy))


# ---- the program: standard input to standard output, both as bytes

def table_book(data):
    """A table to its book. Only the first 16,472 bytes count. The slice that the program lends holds every book that a table gives."""
    data = data[:4 * LONGEST_TABLE + 4]
    if len(data) % 4:
        return ref.refusal(25)
    lent = [0] * LONGEST_MADE
    no, length = convert(ref.words_of(data), lent)
    return ref.refusal(no) if no else b''.join(word.to_bytes(4, 'little', signed=True) for word in lent[:length])
