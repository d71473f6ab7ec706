"""Random tables of planners (request 2.5) for the tests: good ones of many shapes, tables whose book is refused, and a fault for each part of 25 and 26. All is
drawn from the random.Random that is handed in. The stored cases hold tables of most shapes, so a shape keeps what it draws from a seed."""

import books
import rewards
from books import MOST_LINES, MOST_NEXT, WORST, nexts, scale_of

MOST_STATES, MOST_POSTS = 16, 64

# The table of docs/FORMAT.md: D = 2, H = 2, n = 2, the first state 1. State 0 has one choice, reward 3, to state 0; state 1 has reward 5 to either state, or -1
# to itself; closing rewards 4 and -7.
BY_HAND = [2, 2, 2, 1, 9] + [1, 2] + [1, 0, 2, 0, 1, 1, 1, 0, 0] + [3, 2, 5, 1, 1, -1, 2, 4, -7]


def build(scale, stages, first, choices, closing):
    """The words of a table; choices[state] is a list of (reward, [(next state, weight)]), closing[state] a reward."""
    left, right = [], []
    for here in choices:
        for reward, lines in here:
            left += [len(lines)] + [step for step, _ in lines]
            right += [reward] + [weight for _, weight in lines]
    left, right = left + [0] * len(closing), right + list(closing)
    return [scale, stages, len(closing), first, len(left)] + [len(here) for here in choices] + left + right


def two_states(first=0, x=0, y=0):
    """The example of source document 001, its figure 1, with closing rewards x and y; D = 10."""
    return build(10, 1, first, [[(5, [(0, 5), (1, 5)]), (10, [(1, 10)])], [(-1, [(0, 8), (1, 2)]), (1, [(0, 1), (1, 9)])]], [x, y])


def with_row(words, state, choice, lines):
    """The table with other lines below the first of one choice."""
    table = rewards.Table(words)
    table.choices[state][choice] = table.choices[state][choice][0], list(lines)
    return build(table.scale, table.stages, table.first, table.choices, table.closing)


def fill(rng, scale, stages, states, most_choices, most_next, reward, budget):
    """A table with together at most about `budget` policies."""
    counts = [1] * states
    order = list(range(states))
    rng.shuffle(order)
    for state in order:
        counts[state] = max(1, min(rng.randint(1, most_choices), int(budget ** (1 / stages))))
        budget //= counts[state] ** stages
    choices = [[(reward(rng), nexts(rng, scale, states, rng.randint(1, most_next))) for _ in range(count)] for count in counts]
    return build(scale, stages, rng.randrange(states), choices, [reward(rng) for _ in range(states)])


def rewards_within(rng, scale, stages):
    return books.costs_within(rng, books.most_cost(scale, stages))


# ---- shapes whose book is accepted, but for edge

def small(rng):
    scale, stages = scale_of(rng), rng.randint(1, 3)
    return fill(rng, scale, stages, rng.randint(1, 3), 4, 3, rewards_within(rng, scale, stages), rng.choice([8, 300, 10 ** 4]))


def one_state(rng):
    scale, stages = scale_of(rng), rng.randint(1, 8)
    return fill(rng, scale, stages, 1, 8, 1, rewards_within(rng, scale, stages), rng.choice([8, 300, 10 ** 4]))


def one_stage(rng):
    scale = scale_of(rng)
    return fill(rng, scale, 1, rng.randint(1, MOST_STATES), 8, MOST_NEXT, rewards_within(rng, scale, 1), 10 ** 9)


def deep(rng):
    scale, stages = scale_of(rng), rng.randint(5, 8)
    return fill(rng, scale, stages, rng.randint(1, 3), 2, 2, rewards_within(rng, scale, stages), rng.choice([256, 10 ** 5]))


def sixteen(rng):
    """Sixteen states, with few choices."""
    scale, stages = scale_of(rng), rng.randint(1, 3)
    return fill(rng, scale, stages, MOST_STATES, 2, MOST_NEXT, rewards_within(rng, scale, stages), rng.choice([1, 16, 1000]))


def ties(rng):
    """Few different rewards, so that the order rests on the choices."""
    few = rng.choice([(0,), (0, 1), (-1, 0, 1)])
    return fill(rng, rng.choice([1, 2, 4]), rng.randint(1, 3), rng.randint(1, 3), 3, 2, lambda r: r.choice(few), 10 ** 4)


def ends(rng):
    """Rewards of -100,000 and 100,000."""
    scale, stages = rng.choice([1, 2, 3, 10]), rng.randint(1, 4)
    return fill(rng, scale, stages, rng.randint(1, 3), 3, 2, lambda r: r.choice([-100000, 100000, 100000, 99999, 0]), 1000)


def edge(rng):
    """The largest reward stands at question 13's edge, or one beyond it."""
    pairs = [(d, h) for h in (7, 8) for d in range(1, 101) if books.most_cost(d, h) < 100000]
    scale, stages = (100, 7) if rng.random() < 0.3 else rng.choice(pairs)    # 100^7 × 8 × 5,000 is the bound itself
    limit = books.most_cost(scale, stages) + rng.choice([0, 0, 1])
    found = rng.choice([limit, -limit])
    return fill(rng, scale, stages, rng.randint(1, 2), 2, 2, rng.choice([lambda r: found, lambda r: r.choice([found, -found, 0])]), 256)


def in_words(*values):
    """Those that fit 32 bits."""
    return [x for x in values if -WORST - 1 <= x <= WORST]


def row_allowed(scale, states, lines):
    """May a book have these lines below a choice's first, if the weights add to the scale?"""
    steps = [step for step, _ in lines]
    return len(lines) <= MOST_NEXT and steps == sorted({*steps}) and all(0 <= step < states and 1 <= weight <= scale for step, weight in lines)


def any_lines(rng, scale, states, r):
    """r lines that no book may have: any next states, any weights that add to the scale."""
    while True:
        large = rng.random() < 0.5
        weights = [rng.choice([0, -1, 1, scale, scale + 1, -scale, WORST, -WORST]) if large else rng.randint(-9, 9) for _ in range(r - 1)]
        weights.append(scale - sum(weights))
        lines = [(rng.choice([rng.randrange(states), rng.randrange(states), states, -1, WORST, -WORST - 1]), weight) for weight in weights]
        if in_words(weights[-1]) and not row_allowed(scale, states, lines):
            return lines


def unused(rng):
    """H = 1: states other than the first have lines that no book may have, but the book has none of their lines."""
    scale, states = scale_of(rng), rng.randint(2, MOST_STATES)
    words = fill(rng, scale, 1, states, 3, 3, rewards_within(rng, scale, 1), 10 ** 6)
    for state in books.some(rng, [state for state in range(states) if state != words[3]], 0.5):
        words = with_row(words, state, 0, any_lines(rng, scale, states, rng.choice([1, 2, 7, 17])))
    return words


def longest(rng, stages=1):
    """Sixteen states and 2,048 lines. With H = 1 the book has the lines of the first state alone, which have at most 6 next states, and is accepted."""
    scale, first = rng.choice([6, 60, 100]), rng.randrange(MOST_STATES)
    rows = [[rng.randint(1, MOST_NEXT) if state == first else 14 for _ in range(8)] for state in range(MOST_STATES)]
    others = [state for state in range(MOST_STATES) if state != first]
    for i in range(MOST_LINES - MOST_STATES - sum(1 + r for row in rows for r in row)):    # what is left is spread over the other states
        rows[others[i % len(others)]][i // len(others) % 8] += 1
    reward = rewards_within(rng, scale, stages)
    choices = [[(reward(rng), nexts(rng, scale, MOST_STATES, r) if state == first else any_lines(rng, scale, MOST_STATES, r)) for r in row]
               for state, row in enumerate(rows)]
    return build(scale, stages, first, choices, [reward(rng) for _ in range(MOST_STATES)])


GOOD = [small, one_state, one_stage, deep, sixteen, ties, ends, edge, unused]


# ---- shapes whose book is refused, each by one question if nothing else is amiss

def many_posts(rng):
    """6: the book has more than 64 posts."""
    scale = scale_of(rng)
    states, stages = rng.choice([(n, h) for n in range(8, 17) for h in range(1, 9) if n * h >= MOST_POSTS])
    return fill(rng, scale, stages, states, 2, 2, rewards_within(rng, scale, stages), 1)


def many_lines(rng):
    """4: the book has more than 2,048 lines, and often too many posts."""
    while True:
        scale, stages, states = rng.choice([6, 7, 100]), rng.randint(2, 8), rng.randint(6, MOST_STATES)
        reward = rewards_within(rng, scale, stages)
        choices = [[(reward(rng), nexts(rng, scale, states, MOST_NEXT)) for _ in range(8)] for _ in range(states)]
        words = build(scale, stages, rng.randrange(states), choices, [reward(rng) for _ in range(states)])
        if rewards.book_of(words)[2] > MOST_LINES:
            return words


def in_book(rng, words):
    """A state whose lines are in the book, and one of its choices."""
    table = rewards.Table(words)
    state = table.first if table.stages == 1 else rng.randrange(table.states)
    return state, rng.randrange(len(table.choices[state]))


def some_good(rng):
    return rng.choice([small, one_state, one_stage, deep])(rng)


def seven(rng):
    """9: a choice has 7 lines or more."""
    words = some_good(rng)
    return with_row(words, *in_book(rng, words), any_lines(rng, words[0], words[2], rng.choice([7, 7, 8, 16, 17])))


def bad_next(rng):
    """11: next states that fall, repeat or lie outside."""
    words = some_good(rng)
    scale, states = words[0], words[2]
    kind = rng.randrange(3)
    if kind == 0:
        steps = [rng.choice([states, states + 1, 16, -1, WORST, -WORST - 1])]
    elif kind == 1:
        steps = [rng.randrange(states)] * 2
    else:
        steps = [states - 1, 0] if states > 1 else [0, states]
    row = [(step, rng.choice([1, 0, scale])) for step in steps[1:]]
    return with_row(words, *in_book(rng, words), [(steps[0], scale - sum(weight for _, weight in row))] + row)


def bad_weights(rng):
    """12: weights that add to D, one of them 0 or less, or above D."""
    while True:
        words = rng.choice([small, one_stage, deep])(rng)
        if words[2] > 1:
            break
    scale = words[0]
    first = rng.choice([0, -1, scale + 1, scale - WORST, WORST])
    return with_row(words, *in_book(rng, words), [(0, first), (1, scale - first)])


REFUSED = [many_posts, many_lines, seven, bad_next, bad_weights]


# ---- faults: each changes the words of a table that passes 25 and 26

class Places:
    """Where the words stand: the first lines of choices, the lines below each, the closing lines."""

    def __init__(self, words):
        table = rewards.Table(words)
        self.scale, self.states, self.lines = table.scale, table.states, table.lines
        self.counts = range(5, 5 + table.states)
        self.left = 5 + table.states
        self.right = self.left + table.lines
        self.heads, self.steps, line = [], [], 0
        for choices in table.choices:
            for _, lines in choices:
                self.heads.append(line)
                self.steps.append(range(line + 1, line + 1 + len(lines)))
                line += 1 + len(lines)
        self.closing = range(line, line + table.states)


def break_missing(rng, words, at):
    del words[rng.randrange(5):]


def break_states(rng, words, at):
    words[2] = rng.choice([0, -1, 17, WORST, -WORST - 1])


def break_first(rng, words, at):
    words[3] = rng.choice([-1, at.states, at.states + 1, WORST, -WORST - 1])


def break_scale(rng, words, at):
    words[0] = rng.choice([0, -1, 101, WORST, -WORST - 1])


def break_stages(rng, words, at):
    words[1] = rng.choice([0, -1, 9, WORST, -WORST - 1])


def break_lines(rng, words, at):
    words[4] = rng.choice([0, -1, 2049, WORST, -WORST - 1])


def break_length(rng, words, at):
    kind = rng.randrange(4)
    if kind == 0:
        words.append(rng.choice([0, 1, -1]))
    elif kind == 1:
        del words[rng.randrange(5, len(words)):]
    elif kind == 2:
        words[4] += 1 if words[4] < 2 else -1 if words[4] >= MOST_LINES else rng.choice([1, -1])
    else:
        words[2] = words[2] % MOST_STATES + 1


def break_count(rng, words, at):
    words[rng.choice(at.counts)] = rng.choice([0, -1, 9, WORST, -WORST - 1])


def break_no_lines(rng, words, at):
    words[at.left + rng.choice(at.heads)] = rng.choice([0, 0, -1, -WORST - 1])


def break_fit(rng, words, at):
    line = rng.choice(at.heads)
    words[at.left + line] = rng.choice([at.lines - line, at.lines, 2048, WORST])


def break_used(rng, words, at):
    kind = rng.randrange(3)
    if kind == 0 and at.lines < MOST_LINES:    # a line more, before the closing lines or after them
        line = rng.choice([at.closing[0], at.lines])
        words.insert(at.right + line, 0)
        words.insert(at.left + line, 0)
        words[4] = at.lines + 1
    elif kind == 1:
        i = rng.choice(at.counts)
        words[i] = words[i] % 8 + 1
    else:
        line = at.left + rng.choice(at.heads)
        words[line] = rng.choice(in_words(words[line] + 1, words[line] - 1))


def break_sum(rng, words, at):
    line = at.right + rng.choice(rng.choice(at.steps))
    words[line] = rng.choice(in_words(words[line] + 1, words[line] - 1, 0, -words[line], WORST, -WORST - 1))


def break_closing(rng, words, at):
    words[at.left + rng.choice(at.closing)] = rng.choice([1, -1, WORST, -WORST - 1])


def break_reward(rng, words, at):
    words[at.right + rng.choice([*at.heads, *at.closing])] = rng.choice([100001, -100001, WORST, -WORST - 1])


BREAKS_25 = [break_missing, break_states, break_first, break_scale, break_stages, break_lines, break_length]
BREAKS_26 = [break_count, break_no_lines, break_fit, break_used, break_sum, break_closing, break_reward]


LAST = [break_used, break_length, break_missing]    # they may change the length


def broken(rng, words, faults):
    """The table with each fault of the list."""
    at, words = Places(words), list(words)
    for fault in sorted(faults, key=lambda f: (LAST.index(f) if f in LAST else -1, f.__name__)):
        fault(rng, words, at)
    return words


def wild(rng):
    """Words that are no table, or nearly one."""
    kind = rng.randrange(3)
    if kind == 0:
        return [rng.randint(-WORST - 1, WORST) for _ in range(rng.randrange(12))]
    if kind == 1:
        return [rng.randint(0, 3) for _ in range(rng.randrange(40))]
    return [2, rng.randint(1, 2), 2, rng.randint(0, 1), 6] + [rng.randint(0, 3) for _ in range(14)]


def any_table(rng):
    """A table of any kind: half of them good."""
    kind = rng.random()
    if kind < 0.05:
        return wild(rng)
    words = longest(rng, rng.choice([1, 1, 2])) if kind < 0.07 else rng.choice(REFUSED)(rng) if kind < 0.25 else rng.choice(GOOD)(rng)
    if kind < 0.75:
        return words
    return broken(rng, words, rng.sample(BREAKS_25 + BREAKS_26 + BREAKS_26, rng.choice([1, 1, 1, 2, 3])))


def feasible(words):
    """Can the reference enumerate the plans of its book, and the policies of the table? A table that it refuses costs nothing."""
    return rewards.table_no(words) > 0 or books.feasible(rewards.book_of(words))


def draw(rng, shape):
    """A table of the shape that the reference can enumerate."""
    while True:
        words = shape(rng)
        if feasible(words):
            return words
