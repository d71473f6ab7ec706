"""The first K plans of a book that has too many plans to enumerate: the method of docs/FORMAT.md, "Is a plan missing?", row by row.

reference.py is the rule; this is compared with it on every book that can be enumerated (tests/test_search.py), and used only for those that cannot.
"""

import contextlib
import functools
import heapq

import reference as ref


def number(book, found, post, choice):
    """A choice's cost to the end over D^(H - n), by the numbers found of the next posts; None if one of them has none. Its cost counts whole, whether the day
    goes on or stops there; each line adds the next post's number by its weight, and the missing part adds none."""
    total = book.choices[post][choice][0] * book.scale ** (book.stages - book.stage[post])
    for step, weight in book.next_posts(post, choice):
        if found[step] is None:
            return None
        total += weight * found[step]
    return total


def numbers(book, row):
    """For each post its cost to the end over D^(H - n): by the row's choice where the row has come to the post, by its best choice after. A closed choice is
    none; None where no choice has a number."""
    found = [None] * book.posts
    for post in reversed(range(book.posts)):
        made = row[post:post + 1] or range(book.counts[post])
        known = [number(book, found, post, c) for c in made if c != 255 and book.is_open(post, c)]
        found[post] = min((x for x in known if x is not None), default=None)
    return found


def reached(book, row):
    """Is the post after the row reached?"""
    marks = {0}
    for post, choice in enumerate(row):
        if choice != 255:
            marks.update(step for step, _ in book.next_posts(post, choice))
    return len(row) in marks


def grown(book, row):
    """The row up to the next post that has more than one choice, or its end."""
    while len(row) < book.posts:
        if not reached(book, row):
            row += (255,)
        elif book.counts[len(row)] == 1:
            row += (0,)
        else:
            break
    return row


def first(words, k):
    """As reference.ranking. Rows are taken by their least cost, then in order of their choices, so whole rows come out in the order of plans. A row without a
    number leads to no plan."""
    book, out, rows = ref.Book(words), [], []

    def keep(row):
        cost = numbers(book, row)[0]
        if cost is not None:
            heapq.heappush(rows, (cost, row))
    keep(grown(book, ()))
    while rows and len(out) < k:
        cost, row = heapq.heappop(rows)
        if len(row) == book.posts:
            out.append((cost, row))
            continue
        for choice in range(book.counts[len(row)]):
            keep(grown(book, row + (choice,)))
    return out


def plans(book):
    """As reference.plans. No choice that leads to a post without a number is taken, so that every row becomes a plan."""
    found = numbers(book, ())

    def leads_on(post, choice):
        return book.is_open(post, choice) and all(found[step] is not None for step, _ in book.next_posts(post, choice))

    def grow(row, marks):
        post = len(row)
        if post == book.posts:
            yield row
        elif post not in marks:
            yield from grow(row + (255,), marks)
        else:
            for choice in range(book.counts[post]):
                if leads_on(post, choice):
                    yield from grow(row + (choice,), marks.union(step for step, _ in book.next_posts(post, choice)))
    return grow((), {0})


def is_plan(book, slice_):
    if len(slice_) != book.posts:
        return False
    return all((choice < book.counts[post] and book.is_open(post, choice)) if reached(book, tuple(slice_[:post])) else choice == 255
               for post, choice in enumerate(slice_))


def plan_cost(book, plan):
    return numbers(book, tuple(plan))[0]


def most_marked(book, marks, plan):
    """As reference.most_marked, from the last posts back: of a choice made, its mark and the most that a next post has."""
    found = {}
    for post in reversed(range(book.posts)):
        if plan[post] != 255:
            later = [found[step] for step, _ in book.next_posts(post, plan[post])]
            found[post] = marks[ref.choice_place(book, post, plan[post])] + max(later, default=0)
    return found[0]


@functools.lru_cache(maxsize=4)
def longest_list(words):
    """The first 64 plans, of which every list is the front. The last books are kept."""
    return first(list(words), 64)


def plans_before(words, cost, plan):
    """As reference.plans_before, for a plan of the first 64; 64 for any other, which no list has."""
    return sum(row < (cost, plan) for row in longest_list(tuple(words)))


# What the calls of reference.py ask of all plans of a book.
INSTEAD = {'ranking': lambda words, k: longest_list(tuple(words))[:k], 'plans': plans, 'is_plan': is_plan, 'plan_cost': plan_cost, 'plans_before': plans_before,
           'most_marked': most_marked}


def use(functions):
    """Puts these in the place of those of reference.py, which forgets what it keeps of the last books by them."""
    for name, function in functions.items():
        setattr(ref, name, function)
    for kept in (ref.priced, ref.is_small):
        kept.cache_clear()


@contextlib.contextmanager
def instead_of_enumeration():
    """The calls of reference.py, over this search."""
    before = {name: getattr(ref, name) for name in INSTEAD}
    use(INSTEAD)
    try:
        yield
    finally:
        use(before)
