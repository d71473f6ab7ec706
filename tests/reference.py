"""The rules of document 01 with the changes of document 02 (2.1, 2.3, 2.7 to 2.11), word by word and without any search: plans and days are enumerated.

Written from the documents alone. It shares nothing with the proved program, and is slow on purpose: every plan of the book is listed, every day
of every plan is walked. Words below are those of the documents.
"""

import functools
import itertools

LONGEST_BOOK = 4172
CLOSED = 200000    # the cost that marks a choice as closed
MOST_SMALL = 4096    # plans of a book that is ranked by going through them


class Book:
    """A book whose questions 1 to 9 are passed, taken apart: choices[post] is a list of (cost, [(next post within its stage, weight)])."""

    def __init__(self, words):
        self.scale, self.stages, self.lines = words[0], words[1], words[2]
        at = 3
        self.sizes = words[at:at + self.stages + 1]
        at += self.stages + 1
        self.posts = sum(self.sizes)
        self.counts = words[at:at + self.posts]
        at += self.posts
        left, right = words[at:at + self.lines], words[at + self.lines:at + 2 * self.lines]
        self.first = [sum(self.sizes[:n]) for n in range(self.stages + 1)]
        self.stage = [n for n in range(self.stages + 1) for _ in range(self.sizes[n])]
        self.choices = []
        line = 0
        for post in range(self.posts):
            here = []
            for _ in range(self.counts[post]):
                r, cost = left[line], right[line]
                here.append((cost, [(left[line + i], right[line + i]) for i in range(1, r + 1)]))
                line += 1 + r
            self.choices.append(here)

    def is_open(self, post, choice):
        return self.choices[post][choice][0] != CLOSED

    def next_posts(self, post, choice):
        start = self.first[self.stage[post] + 1] if self.stage[post] < self.stages else 0
        return [(start + step, weight) for step, weight in self.choices[post][choice][1]]


def lines_fit(words):
    """Question 9: every r as allowed, all lines fit, exactly L used. Before stage H, r is from 0, a sure stop, to 6; at stage H it is 0."""
    stages, lines = words[1], words[2]
    sizes = words[3:4 + stages]
    posts = sum(sizes)
    counts = words[4 + stages:4 + stages + posts]
    left = words[4 + stages + posts:4 + stages + posts + lines]
    last = posts - sizes[stages]
    line = 0
    for post in range(posts):
        for _ in range(counts[post]):
            if line >= lines:
                return False
            r = left[line]
            if post >= last and r != 0:
                return False
            if post < last and not 0 <= r <= 6:
                return False
            line += 1 + r
            if line > lines:
                return False
    return line == lines


def cost_allowed(cost):
    return -100000 <= cost <= 100000 or cost == CLOSED


def check(words):
    """The number of the first question of a book that is answered no, or 0. Only 13 skips closed choices."""
    if len(words) < 3:
        return 1
    if not 1 <= words[0] <= 100:
        return 2
    stages, lines = words[1], words[2]
    if not 1 <= stages <= 8:
        return 3
    if not 1 <= lines <= 2048:
        return 4
    if len(words) < 4 + stages:
        return 5
    sizes = words[3:4 + stages]
    if sizes[0] != 1 or any(not 1 <= n <= 16 for n in sizes[1:]) or sum(sizes) > 64:
        return 6
    posts = sum(sizes)
    if len(words) != 4 + stages + posts + 2 * lines:
        return 7
    counts = words[4 + stages:4 + stages + posts]
    if any(not 1 <= n <= 8 for n in counts):
        return 8
    if not lines_fit(words):
        return 9
    book = Book(words)
    every = [(post, choice) for post in range(posts) for choice in book.choices[post]]
    if any(not cost_allowed(cost) for _, (cost, _) in every):
        return 10
    for post, (_, nexts) in every:
        steps = [step for step, _ in nexts]
        if nexts and any(not 0 <= step < sizes[book.stage[post] + 1] for step in steps):
            return 11
        if any(b <= a for a, b in zip(steps, steps[1:])):
            return 11
    for post, (_, nexts) in every:
        if any(not 1 <= weight <= book.scale for _, weight in nexts):
            return 12
        if book.stage[post] < stages and sum(weight for _, weight in nexts) > book.scale:
            return 12
    largest = max((abs(cost) for _, (cost, _) in every if cost != CLOSED), default=0)
    if book.scale ** stages * (stages + 1) * largest > 4 * 10 ** 18:
        return 13
    return 0


def plans(book):
    """All plans: post 0 is reached; if a post is reached, so are all next posts of its chosen choice. No plan takes a closed choice, so choices that reach a
    post with every choice closed make none."""
    def grow(post, chosen, reached):
        if post == book.posts:
            yield tuple(chosen)
        elif post not in reached:
            yield from grow(post + 1, chosen + [255], reached)
        else:
            for choice in range(book.counts[post]):
                if book.is_open(post, choice):
                    more = {step for step, _ in book.next_posts(post, choice)}
                    yield from grow(post + 1, chosen + [choice], reached | more)
    return grow(0, [], {0})


def missing_part(book, post, choice):
    """D less the weights of a choice before stage H: the chance that the tour stops there, over D."""
    return book.scale - sum(weight for _, weight in book.next_posts(post, choice))


def walks(book, plan):
    """All days of a plan, each as (weight, posts).

    A day is one post per stage, from post 0, each next post on a line of the choice made: its weight is the product of those lines' weights. Or it stops
    after a choice before stage H whose weights add to less than D: its weight takes the missing part there and D for each later stage before H.
    """
    def walk(posts, weight):
        post = posts[-1]
        stage, choice = book.stage[post], plan[post]
        if stage == book.stages:
            yield weight, posts
        elif missing_part(book, post, choice) > 0:
            yield weight * missing_part(book, post, choice) * book.scale ** (book.stages - 1 - stage), posts
        for step, part in book.next_posts(post, choice):
            yield from walk(posts + (step,), weight * part)
    return walk((0,), 1)


def days(book, plan):
    """All days of a plan, each as (weight, cost): the cost is the sum of the costs of the choices made, H + 1 of them unless the day stops."""
    return ((weight, sum(book.choices[post][plan[post]][0] for post in posts)) for weight, posts in walks(book, plan))


def plan_cost(book, plan):
    return sum(weight * cost for weight, cost in days(book, plan))


def choice_place(book, post, choice):
    """The place of a choice among all choices of the book, in book order."""
    return sum(book.counts[:post]) + choice


def most_marked(book, marks, plan):
    """The most marked choices that a day of the plan makes, those at stage H and before a stop included."""
    return max(sum(marks[choice_place(book, post, plan[post])] for post in posts) for _, posts in walks(book, plan))


def is_plan(book, slice_):
    return any(tuple(slice_) == plan for plan in plans(book))


def before(book, p, q):
    """P comes before Q: lower cost, or equal with the lower choice at the first post where they differ."""
    cp, cq = plan_cost(book, p), plan_cost(book, q)
    if cp != cq:
        return cp < cq
    for a, b in zip(p, q):
        if a != b:
            return a < b
    return False


@functools.lru_cache(maxsize=8)
def priced(words):
    """All plans of a book that passes 1 to 13, as (cost, plan), in the order of their bytes. The last books are kept."""
    book = Book(list(words))
    return [(plan_cost(book, plan), plan) for plan in plans(book)]


@functools.lru_cache(maxsize=8)
def in_order(words):
    """The same, each before those that it comes before."""
    return sorted(priced(words))


def ranking(words, k):
    """The list for a book that passes 1 to 13: (cost, plan) for each plan that fewer than k come before."""
    return in_order(tuple(words))[:k]


def plans_before(words, cost, plan):
    """How many plans of a book that passes 1 to 13 come before one of them."""
    return sum(row < (cost, plan) for row in in_order(tuple(words)))


def count_no(k):
    return 0 if 1 <= k <= 64 else 14


def plan_no(words):
    """28, of a book that passes 1 to 13: has it a plan?"""
    return 28 if next(plans(Book(words)), None) is None else 0


@functools.lru_cache(maxsize=8)
def is_small(words):
    """Has a book that passes 1 to 13 at most 4,096 plans? No more are made than tell it."""
    return sum(1 for _ in itertools.islice(plans(Book(list(words))), MOST_SMALL + 1)) <= MOST_SMALL


def small_no(words):
    """30, of a book that passes 1 to 13: are its plans few enough?"""
    return 0 if is_small(tuple(words)) else 30


def list_no(words, k):
    """What ranking, writing, accepting, finding and limiting ask of a book and K before any slice or the rest of a record: 1 to 14, then 28."""
    return check(words) or count_no(k) or plan_no(words)


def room_no(words, k, costs, slots):
    """15 and 16, of a book that passes 1 to 13: do the lent slices hold K costs and K plans?"""
    return 15 if len(costs) < k else 16 if len(slots) < k * Book(words).posts else 0


# ---- the calls: each gives its number first

def value(words, slice_):
    no = check(words)
    if no:
        return no, 0
    if not is_plan(Book(words), slice_):
        return 17, 0
    return 0, plan_cost(Book(words), tuple(slice_))


def least(words):
    no = check(words) or plan_no(words)
    return (no, 0) if no else (0, ranking(words, 1)[0][0])


def fill(best, costs, slots):
    """Two lists that stand for the lent slices are changed in place."""
    for j, (cost, plan) in enumerate(best):
        costs[j] = cost
        slots[j * len(plan):(j + 1) * len(plan)] = plan
    return 0, len(best)


def rank(words, k, costs, slots):
    no = list_no(words, k) or room_no(words, k, costs, slots)
    return (no, 0) if no else fill(ranking(words, k), costs, slots)


def rank_small(words, k, costs, slots):
    """As rank, of a book with at most 4,096 plans: goes through all of them, and after each keeps the first k of those met."""
    no = list_no(words, k) or small_no(words) or room_no(words, k, costs, slots)
    if no:
        return no, 0
    kept = []
    for row in priced(tuple(words)):
        kept = sorted(kept + [row])[:k]
    return fill(kept, costs, slots)


def record(words, k):
    best = ranking(words, k)
    out = b''.join(n.to_bytes(4, 'little') for n in (len(words), k, len(best)))
    out += b''.join(w.to_bytes(4, 'little', signed=True) for w in words)
    out += b''.join(cost.to_bytes(8, 'little', signed=True) for cost, _ in best)
    return out + b''.join(bytes(plan) for _, plan in best)


def write(words, k, lent):
    no = list_no(words, k)
    if no:
        return no, 0
    out = record(words, k)
    if len(lent) < len(out):
        return 18, 0
    lent[:len(out)] = out
    return 0, len(out)


def words_of(data):
    return [int.from_bytes(data[i:i + 4], 'little', signed=True) for i in range(0, len(data) - 3, 4)]


def accept(data):
    """(number, S, k)"""
    data = bytes(data)
    if len(data) < 12:
        return 19, 0, 0
    w, most, k = (int.from_bytes(data[i:i + 4], 'little') for i in (0, 4, 8))
    if w > LONGEST_BOOK or len(data) < 12 + 4 * w:
        return 19, 0, 0
    words = words_of(data[12:12 + 4 * w])
    no = list_no(words, most)
    if no:
        return no, 0, 0
    posts = Book(words).posts
    if not 1 <= k <= most or len(data) != 12 + 4 * w + 8 * k + k * posts:
        return 20, 0, 0
    best = ranking(words, most)
    costs = b''.join(cost.to_bytes(8, 'little', signed=True) for cost, _ in best)
    listed = b''.join(bytes(plan) for _, plan in best)
    if k != len(best) or data[12 + 4 * w:] != costs + listed:
        return 21, 0, 0
    return 0, posts, k


def show(data, j):
    data = bytes(data)
    no, posts, k = accept(data)
    if no or j >= k:
        return b''
    at = 12 + 4 * int.from_bytes(data[:4], 'little') + 8 * k + j * posts
    return data[at:at + posts]


def find(words, k, slice_):
    """(number, answer, value): 1, it is rank j; 2, it costs more than the last listed, by this amount over D^H; 3, it costs the same as the last listed, and at
    this post, the first where they differ, takes the higher choice."""
    no = list_no(words, k)
    if no:
        return no, 0, 0
    book, plan = Book(words), tuple(slice_)
    if not is_plan(book, plan):
        return 17, 0, 0
    cost = plan_cost(book, plan)
    j = plans_before(words, cost, plan) + 1
    if j <= k:
        return 0, 1, j
    last_cost, last = ranking(words, k)[-1]
    if cost > last_cost:
        return 0, 2, cost - last_cost
    return 0, 3, min(post for post in range(book.posts) if plan[post] != last[post])


def limit_no(book, marks, m):
    """29: one mark for each choice of the book, 1 or 0, and m from 0 to 9?"""
    return 0 if len(marks) == sum(book.counts) and all(mark in (0, 1) for mark in marks) and m <= 9 else 29


def limit(words, k, marks, m):
    """(number, answer, rank): 1, the rank of the first listed plan none of whose days makes more than m marked choices; 2, none in the list, which has K plans;
    3, none in the book."""
    no = list_no(words, k) or limit_no(Book(words), marks, m)
    if no:
        return no, 0, 0
    book, best = Book(words), ranking(words, k)
    for j, (_, plan) in enumerate(best):
        if most_marked(book, marks, plan) <= m:
            return 0, 1, j + 1
    return 0, 2 if len(best) == k else 3, 0


# ---- the programs: standard input to standard output, both as bytes

def asked(data):
    """What the programs that print and that file read, K and a book: (number, K, words). Only the first 16,696 bytes count."""
    data = data[:16696]
    if len(data) < 4 or len(data) % 4:
        return 1, 0, []
    k, words = int.from_bytes(data[:4], 'little'), words_of(data[4:])
    return list_no(words, k), k, words


def refusal(no):
    return b'refused %d\n' % no


def printed(words, k):
    book, best = Book(words), ranking(words, k)
    out = ['%d of %d, scale %d' % (len(best), k, book.scale ** book.stages)]
    for j, (cost, plan) in enumerate(best):
        out.append(' '.join(str(x) for x in (j + 1, cost)) + ''.join(' -' if c == 255 else ' %d' % c for c in plan))
    return ('\n'.join(out) + '\n').encode()


def page(data):
    """K and a book to the printed page."""
    no, k, words = asked(data)
    return refusal(no) if no else printed(words, k)


def filed(data):
    """K and a book to the record."""
    no, k, words = asked(data)
    return refusal(no) if no else record(words, k)


def record_page(data):
    """A record to the page of the K and the book that it carries."""
    no = accept(data)[0]
    if no:
        return refusal(no)
    w, most = (int.from_bytes(data[i:i + 4], 'little') for i in (0, 4))
    return printed(words_of(data[12:12 + 4 * w]), most)
