"""Random books for the tests: good ones of many shapes, with stops, closed choices and depots and without, broken ones, and plans of them. All is drawn from
the random.Random that is handed in. The stored cases hold books of most shapes, so a shape, a fault and the lists SHAPES and BREAKS keep what is drawn of them
from a seed."""

import itertools

import reference as ref

MOST_PLANS = 4000
MOST_WALKS = 60000
WORST = 2 ** 31 - 1
MOST_NEXT = 6    # next posts that question 9 allows a choice
MOST_LINES = 2048


def build(scale, sizes, choices):
    """The words of a book; choices[post] is a list of (cost, [(next post within its stage, weight)])."""
    left, right = [], []
    for here in choices:
        for cost, nexts in here:
            left += [len(nexts)] + [step for step, _ in nexts]
            right += [cost] + [weight for _, weight in nexts]
    return [scale, len(sizes) - 1, len(left)] + list(sizes) + [len(here) for here in choices] + left + right


def most_cost(scale, stages):
    """The largest cost that question 10 and question 13 allow."""
    return min(100000, 4 * 10 ** 18 // (scale ** stages * (stages + 1)))


def weights(rng, scale, r):
    """r numbers from 1 on that sum to the scale."""
    cuts = [0] + sorted(rng.sample(range(1, scale), r - 1)) + [scale]
    return [b - a for a, b in zip(cuts, cuts[1:])]


def nexts(rng, scale, size, r):
    r = max(1, min(r, size, scale, MOST_NEXT))
    return list(zip(sorted(rng.sample(range(size), r)), weights(rng, scale, r)))


def stage_of(sizes):
    return [n for n, size in enumerate(sizes) for _ in range(size)]


def fill(rng, scale, sizes, most_choices, most_next, cost, budget):
    """A book whose posts have together at most about `budget` plans."""
    stage = stage_of(sizes)
    counts = [1] * len(stage)
    deciding = [post for post, n in enumerate(stage) if n < len(sizes) - 1]
    rng.shuffle(deciding)
    for post in deciding:
        counts[post] = max(1, min(rng.randint(1, most_choices), budget))
        budget //= counts[post]
    choices = []
    for post, n in enumerate(stage):
        if n == len(sizes) - 1:
            choices.append([(cost(rng), [])])
        else:
            choices.append([(cost(rng), nexts(rng, scale, sizes[n + 1], rng.randint(1, most_next))) for _ in range(counts[post])])
    return build(scale, sizes, choices)


def costs_within(rng, limit):
    """How the costs of one book are drawn."""
    low, high = rng.choice([(0, 3), (-3, 3), (0, 1000), (-1000, 1000), (-1000, -1), (-100000, 100000), (0, 100000), (7, 7)])
    low, high = max(low, -limit), min(high, limit)
    return lambda r: r.randint(low, high)


def scale_of(rng):
    return rng.choice([1, 2, 2, 3, 4, 5, 7, 10, 60, 99, 100, rng.randint(1, 100)])


def random_sizes(rng, stages, most):
    return [1] + [rng.randint(1, most) for _ in range(stages)]


# ---- shapes

def small(rng):
    scale, stages = scale_of(rng), rng.randint(1, 3)
    return fill(rng, scale, random_sizes(rng, stages, 3), 4, 3, costs_within(rng, most_cost(scale, stages)), rng.choice([4, 300, 10 ** 6]))


def deep(rng):
    scale, stages = scale_of(rng), rng.randint(5, 8)
    return fill(rng, scale, random_sizes(rng, stages, 3), 3, 2, costs_within(rng, most_cost(scale, stages)), rng.choice([20, 2000, 10 ** 5]))


def wide(rng):
    scale, stages = scale_of(rng), rng.randint(1, 2)
    sizes = random_sizes(rng, stages, rng.choice([4, 8, 16]))
    return fill(rng, scale, sizes, 8, MOST_NEXT, costs_within(rng, most_cost(scale, stages)), rng.choice([8, 60, 1000]))


def ties(rng):
    """Few different costs, so that the order rests on the choices."""
    scale, stages = rng.choice([1, 1, 2, 4]), rng.randint(2, 4)
    few = rng.choice([(0,), (1, 1, 1, 2), (0, 1), (-1, 0, 1)])
    return fill(rng, scale, random_sizes(rng, stages, 3), 4, 2, lambda r: r.choice(few), rng.choice([1000, 10 ** 6]))


def few(rng):
    """Fewer plans than most K."""
    scale, stages = scale_of(rng), rng.randint(1, 8)
    return fill(rng, scale, random_sizes(rng, stages, 2), 3, 2, costs_within(rng, most_cost(scale, stages)), rng.randint(1, 6))


def unreached(rng):
    """Most posts are not reached; those that are not have many choices."""
    scale, stages = scale_of(rng), rng.randint(2, 5)
    return fill(rng, scale, random_sizes(rng, stages, 8), 5, 1, costs_within(rng, most_cost(scale, stages)), 10 ** 6)


def crossing(rng):
    """Ways that part and meet again: a post is reached by several choices."""
    scale, stages = rng.choice([2, 3, 10, 100]), rng.randint(3, 4)
    return fill(rng, scale, [1] + [2] * stages, 3, 2, costs_within(rng, most_cost(scale, stages)), 10 ** 6)


def many(rng):
    """Thousands of plans, from which the first 64 are to be found."""
    scale, stages = scale_of(rng), rng.randint(2, 6)
    few = rng.random() < 0.4
    cost = (lambda r: r.randint(0, 2)) if few else costs_within(rng, most_cost(scale, stages))
    return fill(rng, scale, random_sizes(rng, stages, 4), 5, 3, cost, 10 ** 7)


def edge_sizes(rng):
    """A scale and stages where question 13 allows no cost of 100,000."""
    pairs = [(d, h) for h in (7, 8) for d in range(1, 101) if most_cost(d, h) < 100000]
    return (100, 7) if rng.random() < 0.3 else rng.choice(pairs)    # 100^7 × 8 × 5,000 is the bound itself


def edge(rng):
    """The largest cost stands at question 13's edge, or one beyond it."""
    scale, stages = edge_sizes(rng)
    limit = most_cost(scale, stages) + rng.choice([0, 0, 1])
    found = rng.choice([limit, -limit])
    draw = rng.choice([lambda r: found, lambda r: r.choice([found, -found]), lambda r: r.choice([found, 0, 1])])
    return fill(rng, scale, random_sizes(rng, stages, 2), 2, 2, draw, 8)


def split_up(rng, total, parts, most):
    sizes = [1] * parts
    while sum(sizes) < total:
        n = rng.randrange(parts)
        if sizes[n] < most:
            sizes[n] += 1
    return sizes


def lengthen(rng, rows, most):
    """Adds choices and next posts at random up to 2,048 lines. rows[post] has the number of next posts of each choice, and most[post] is how many one may have
    there; 0 leaves the post as it is. Is every line used?"""
    free = [post for post, r in enumerate(most) if r]
    lines = sum(1 + r for row in rows for r in row)
    for _ in range(20000):
        if lines == MOST_LINES:
            return True
        post = rng.choice(free)
        i = rng.randrange(len(rows[post]))
        if len(rows[post]) < 8 and lines + 2 <= MOST_LINES and rng.random() < 0.5:
            rows[post].append(1)
            lines += 2
        elif rows[post][i] < most[post]:
            rows[post][i] += 1
            lines += 1
    return False


def large(rng):
    """64 posts and 2,048 lines. Two posts a stage can be reached, and have few choices; the others have all the lines that are left."""
    while True:
        stages, scale = rng.randint(5, 8), rng.choice([16, 60, 100])
        sizes = [1] + split_up(rng, 63, stages, 16)
        places = [(n, post < 2) for n, size in enumerate(sizes) for post in range(size)]    # the stage, and whether some plan reaches the post
        budget, rows = rng.choice([1, 16, 64]), []
        for n, near in places:
            count = max(1, min(rng.randint(1, 2), budget)) if near and n < stages else 1
            budget //= count
            rows.append([min(rng.randint(1, 2), sizes[n + 1]) if near else 1 for _ in range(count)] if n < stages else [0])
        if lengthen(rng, rows, [0 if near or n == stages else min(MOST_NEXT, sizes[n + 1]) for n, near in places]):
            break
    cost = costs_within(rng, most_cost(scale, stages))
    choices = []
    for (n, near), row in zip(places, rows):
        size = 0 if n == stages else min(2, sizes[n + 1]) if near else sizes[n + 1]
        choices.append([(cost(rng), nexts(rng, scale, size, r) if r else []) for r in row])
    return build(scale, sizes, choices)


def full(rng):
    """Sixteen posts a stage, and up to 6 next posts a choice: few plans, up to 1,296 days."""
    sizes = [1, 16, 16, 16, rng.choice([1, 15])]
    scale = rng.choice([6, 7, 100])
    return fill(rng, scale, sizes, 2, MOST_NEXT, costs_within(rng, most_cost(scale, 4)), rng.choice([1, 2, 8]))


def vast(rng):
    """64 posts and up to 2,048 lines, nearly all reached: far more plans than can be enumerated."""
    while True:
        stages, scale = rng.randint(4, 8), rng.choice([2, 3, 10, 60, 100])
        any_cost = costs_within(rng, most_cost(scale, stages))
        cost = rng.choice([lambda r: 0, lambda r: r.randint(0, 1), any_cost, any_cost])
        words = fill(rng, scale, [1] + split_up(rng, 63, stages, 16), rng.randint(2, 8), rng.choice([2, 3, MOST_NEXT]), cost, 10 ** 60)
        if words[2] <= MOST_LINES:
            return words


def six(rng):
    """At least 7 posts a stage; more than half of the choices have 6 next posts, as many as are allowed."""
    stages, scale = rng.randint(1, 3), rng.choice([6, 7, 10, 100])
    sizes = [1] + [rng.randint(7, 9) for _ in range(stages)]
    return fill(rng, scale, sizes, 4, 2 * MOST_NEXT, costs_within(rng, most_cost(scale, stages)), rng.choice([4, 60, 250]))


WITHOUT_STOPS = [small, deep, wide, ties, few, unreached, crossing, edge, six]


# ---- shapes with stops: the weights of a choice before stage H add to less than D

def deciding(book):
    """The choices before stage H, each as (post, choice)."""
    return [(post, c) for post in range(book.posts) if book.stage[post] < book.stages for c in range(book.counts[post])]


def stopping(words):
    """The choices after which a day may stop."""
    book = ref.Book(words)
    return [(post, c) for post, c in deciding(book) if ref.missing_part(book, post, c) > 0]


def reachable(book):
    """The posts that some plan reaches."""
    found = {0}
    for post, c in deciding(book):
        if post in found:
            found.update(step for step, _ in book.next_posts(post, c))
    return found


def below(rng, scale):
    """A sum of weights below the scale: 0, a sure stop, or 1, or one less than the scale, or any."""
    return rng.choice([0, min(1, scale - 1), scale - 1, rng.randrange(scale)])


def barely(rng, scale):
    return rng.choice([min(1, scale - 1), scale - 1])


def nothing(rng, scale):
    return 0


def lower(rng, lines, total):
    """The lines, or some of them, with weights that add to the total."""
    most = min(len(lines), total)
    kept = sorted(rng.sample(lines, rng.choice([most, most, rng.randint(min(1, most), most)])))
    return [(step, weight) for (step, _), weight in zip(kept, weights(rng, total, len(kept)))] if kept else []


def lowered(rng, words, where, total=below):
    """The book with stops at the choices `where`."""
    book, where = ref.Book(words), {*where}
    rows = [[(cost, lower(rng, lines, total(rng, book.scale)) if (post, c) in where else lines) for c, (cost, lines) in enumerate(here)]
            for post, here in enumerate(book.choices)]
    return build(book.scale, book.sizes, rows)


def some(rng, places, share):
    """About a share of the places, and one at least."""
    return [place for place in places if rng.random() < share] or [rng.choice(places)]


def partly(rng, words, total=below):
    """The book with stops at few, at many or at all choices."""
    return lowered(rng, words, some(rng, deciding(ref.Book(words)), rng.choice([0.1, 0.4, 0.8, 1])), total)


def without_stops(rng):
    return rng.choice([small, small, deep, ties, few, unreached, crossing])(rng)


def stops(rng):
    return partly(rng, without_stops(rng))


def stops_each_stage(rng):
    """A choice of each stage stops, at a post that some plan reaches before the weights are lower."""
    words = without_stops(rng)
    book = ref.Book(words)
    found = reachable(book)
    where = [rng.choice([(post, c) for post, c in deciding(book) if post in found and book.stage[post] == n]) for n in range(book.stages)]
    return lowered(rng, words, where, barely)


def stops_everywhere(rng):
    """Every choice stops."""
    words = without_stops(rng)
    return lowered(rng, words, deciding(ref.Book(words)), rng.choice([below, barely]))


def sure_stops(rng):
    return partly(rng, without_stops(rng), nothing)


def post_0_stops(rng):
    """A sure stop is the only choice of post 0, or one of several: a plan with it reaches no other post."""
    book = ref.Book(without_stops(rng) if rng.random() < 0.5 else stops(rng))
    sure, here = (rng.choice([0, rng.choice(book.choices[0])[0]]), []), book.choices[0][:7]
    here.insert(rng.randint(0, len(here)), sure)
    return build(book.scale, book.sizes, [rng.choice([here, here, [sure]])] + book.choices[1:])


def stops_unreached(rng):
    """Only choices of posts that no plan reaches stop."""
    while True:
        words = rng.choice([unreached, unreached, small, few])(rng)
        book = ref.Book(words)
        found = reachable(book)
        far = [(post, c) for post, c in deciding(book) if post not in found]
        if far:
            return lowered(rng, words, some(rng, far, rng.choice([0.3, 1])))


def stops_barely(rng):
    """Sums of exactly 1 or D - 1."""
    return partly(rng, without_stops(rng), barely)


def stops_and_ties(rng):
    """Few different costs, most of them 0, so that plans that stop tie with plans that go on."""
    scale, stages = rng.choice([1, 2, 2, 4]), rng.randint(1, 4)
    few = rng.choice([(0,), (0, 0, 0, 1), (0, 0, 1), (-1, 0, 0, 1)])
    return partly(rng, fill(rng, scale, random_sizes(rng, stages, 3), 4, 2, lambda r: r.choice(few), rng.choice([300, 10 ** 6])))


def stops_and_gains(rng):
    """Every cost is a gain: a stop is a loss."""
    scale, stages = scale_of(rng), rng.randint(1, 5)
    limit = min(most_cost(scale, stages), rng.choice([3, 1000, 100000]))
    return partly(rng, fill(rng, scale, random_sizes(rng, stages, 3), 4, 3, lambda r: -r.randint(1, limit), rng.choice([4, 300, 10 ** 4])))


def stops_deep(rng):
    """H = 8."""
    scale = scale_of(rng)
    words = fill(rng, scale, random_sizes(rng, 8, 3), 3, 2, costs_within(rng, most_cost(scale, 8)), rng.choice([20, 2000, 10 ** 5]))
    return partly(rng, words, rng.choice([below, barely]))


def stops_wide(rng):
    return partly(rng, wide(rng))


def stops_six(rng):
    return partly(rng, six(rng), barely)


def stops_edge(rng):
    """As edge: question 13 asks for the largest cost of all choices, whatever stops."""
    return partly(rng, edge(rng), rng.choice([below, barely, nothing]))


def stops_many(rng):
    return partly(rng, many(rng))


def stops_large(rng):
    """64 posts, and the lines that the stops leave of 2,048."""
    return partly(rng, large(rng))


def stops_full(rng):
    return partly(rng, full(rng), barely)


def stops_vast(rng):
    return partly(rng, vast(rng))


WITH_STOPS = [stops, stops_each_stage, stops_everywhere, sure_stops, post_0_stops, stops_unreached, stops_barely, stops_and_ties, stops_and_gains, stops_deep,
              stops_wide, stops_edge, stops_six]
SHAPES = WITHOUT_STOPS + WITH_STOPS


# ---- shapes with closed choices

def every_choice(book):
    return [(post, c) for post in range(book.posts) for c in range(book.counts[post])]


def closures(words):
    """The closed choices."""
    book = ref.Book(words)
    return [(post, c) for post, c in every_choice(book) if not book.is_open(post, c)]


def with_cost(words, where, cost):
    """The book with this cost at each of the choices `where`."""
    book, where = ref.Book(words), {*where}
    rows = [[(cost if (post, c) in where else old, lines) for c, (old, lines) in enumerate(here)] for post, here in enumerate(book.choices)]
    return build(book.scale, book.sizes, rows)


def close(words, where):
    return with_cost(words, where, ref.CLOSED)


def opened(words):
    """The book with a cost of 0 at each closed choice, so that a plan may take it."""
    return with_cost(words, closures(words), 0)


def random_plan(rng, book):
    """A plan of the book with every choice open."""
    plan, reached = [], {0}
    for post in range(book.posts):
        plan.append(rng.randrange(book.counts[post]) if post in reached else 255)
        if post in reached:
            reached.update(step for step, _ in book.next_posts(post, plan[post]))
    return plan


def without_closed(rng):
    return rng.choice([small, ties, unreached, crossing, crossing, stops, stops_barely, stops_and_ties, post_0_stops])(rng)


def partly_closed(rng, words):
    """The book with some choices closed, before stage H alone or anywhere."""
    choices = rng.choice([deciding, deciding, every_choice])(ref.Book(words))
    return close(words, some(rng, choices, rng.choice([0.03, 0.1, 0.3])))


def closed(rng):
    return partly_closed(rng, without_closed(rng))


def closed_last(rng):
    """Closing choices alone are closed."""
    words = without_closed(rng)
    book = ref.Book(words)
    return close(words, some(rng, [(post, 0) for post in range(book.first[book.stages], book.posts)], rng.choice([0.2, 0.5])))


def closed_stage(rng):
    """Every choice of one stage is closed: there is a plan only where a tour can stop surely before it."""
    words = rng.choice([without_stops, sure_stops, post_0_stops])(rng)
    book = ref.Book(words)
    n = rng.randint(0, book.stages)
    return close(words, [(post, c) for post, c in every_choice(book) if book.stage[post] == n])


def all_closed(rng):
    words = without_closed(rng)
    return close(words, every_choice(ref.Book(words)))


def closed_unreached(rng):
    """Only choices of posts that no plan reaches are closed."""
    while True:
        words = rng.choice([unreached, unreached, small, few])(rng)
        book = ref.Book(words)
        found = reachable(book)
        far = [(post, c) for post, c in every_choice(book) if post not in found]
        if far:
            return close(words, some(rng, far, rng.choice([0.3, 1])))


def one_plan(rng):
    """One plan is left: at the posts that it reaches every other choice is closed, at the others some are."""
    while True:
        words = without_closed(rng)
        book = ref.Book(words)
        plan = random_plan(rng, book)
        others = [(post, c) for post, c in every_choice(book) if plan[post] not in (c, 255)]
        far = [(post, c) for post, c in every_choice(book) if plan[post] == 255]
        if others or far:
            return close(words, others + (some(rng, far, 0.5) if far else []))


def leading_to(rng, scale, lines, step):
    """The lines, one of which leads to this next post."""
    if any(other == step for other, _ in lines):
        return lines
    if not lines:
        return [(step, rng.randint(1, scale))]
    i = rng.randrange(len(lines))
    return sorted(lines[:i] + [(step, lines[i][1])] + lines[i + 1:])


def dead_ends(rng):
    """A dead end two stages deep: at one post every choice is closed, and all choices of a post before it lead there. Some choice leads to that one; by chance
    other ways go on."""
    while True:
        words = rng.choice([small, ties, unreached, unreached, stops, post_0_stops])(rng)
        book = ref.Book(words)
        inner = [post for post in sorted(reachable(book)) if 0 < book.stage[post] < book.stages]
        if inner:
            break
    post = rng.choice(inner)
    n = book.stage[post] + 1
    step = rng.randrange(book.sizes[n])
    book.choices[post] = [(cost, leading_to(rng, book.scale, lines, step)) for cost, lines in book.choices[post]]
    end = book.first[n] + step
    return close(build(book.scale, book.sizes, book.choices), [(end, c) for c in range(book.counts[end])])


def closed_and_ties(rng):
    return partly_closed(rng, rng.choice([ties, stops_and_ties])(rng))


def closed_wide(rng):
    return partly_closed(rng, rng.choice([wide, six, stops_wide])(rng))


def closed_deep(rng):
    return partly_closed(rng, rng.choice([deep, stops_deep])(rng))


def closed_edge(rng):
    """Open costs stand at question 13's edge, in some books one of them beyond it, at a post that is reached or not. The mark would be beyond it too."""
    scale, stages = edge_sizes(rng)
    limit = most_cost(scale, stages)
    words = fill(rng, scale, random_sizes(rng, stages, 2), 3, 2, lambda r: r.choice([limit, -limit, 0, 1]), 100)
    book = ref.Book(words)
    where = [(post, rng.randrange(count)) for post, count in enumerate(book.counts) if count > 1 and rng.random() < 0.6]
    far = [choice for choice in every_choice(book) if choice not in where]
    if rng.random() < 0.4:
        words = with_cost(words, [rng.choice(far)], rng.choice([limit + 1, -limit - 1]))
    return close(words, where or [rng.choice(far)])


def closed_large(rng):
    return partly_closed(rng, rng.choice([large, stops_large])(rng))


def closed_vast(rng):
    return partly_closed(rng, rng.choice([vast, stops_vast])(rng))


WITH_CLOSED = [closed, closed_last, closed_stage, all_closed, closed_unreached, one_plan, dead_ends, closed_and_ties, closed_wide, closed_deep, closed_edge]


# ---- shapes with depots: more than one choice at a post of stage H

MOST_CHOICES = 8


def last_posts(book):
    """The posts of stage H."""
    return range(book.first[book.stages], book.posts)


def depots_at(words):
    """The choices of those posts of stage H that have more than one."""
    book = ref.Book(words)
    return [(post, c) for post in last_posts(book) if book.counts[post] > 1 for c in range(book.counts[post])]


def any_cost(rng, words):
    """Closing costs beside one that a post has: the same, one second more or less, or any."""
    limit = most_cost(words[0], words[1])
    return lambda old: max(-limit, min(limit, rng.choice([old, old + 1, old - 1, rng.randint(-limit, limit), old + rng.randint(-50, 50)])))


def with_depots(rng, words, count, cost):
    """The book with count(post) closing choices at each post of stage H, in any order."""
    book = ref.Book(words)
    for post in last_posts(book):
        here = book.choices[post]
        here += [(cost(here[0][0]), []) for _ in range(count(post) - len(here))]
        rng.shuffle(here)
    return build(book.scale, book.sizes, book.choices)


def some_depots(rng, words, cost=None):
    """The book with more than one closing choice at one last post at least."""
    book = ref.Book(words)
    counts = {post: rng.choice([1, 2, 2, 3, 5, MOST_CHOICES]) for post in last_posts(book)}
    counts[rng.choice(last_posts(book))] = rng.choice([2, 3, MOST_CHOICES])
    return with_depots(rng, words, counts.get, cost or any_cost(rng, words))


def depots(rng):
    return some_depots(rng, without_closed(rng))


def depots_eight(rng):
    """H = 1, and eight closing choices at each last post."""
    scale = scale_of(rng)
    words = fill(rng, scale, [1, rng.randint(1, 3)], 3, 3, costs_within(rng, most_cost(scale, 1)), rng.choice([1, 4]))
    return with_depots(rng, words, lambda post: MOST_CHOICES, any_cost(rng, words))


def depots_alone(rng):
    """One choice at every post before stage H: plans differ in depots only."""
    scale, stages = scale_of(rng), rng.randint(1, 4)
    return some_depots(rng, fill(rng, scale, random_sizes(rng, stages, 3), 1, 3, costs_within(rng, most_cost(scale, stages)), 1))


def depots_and_ties(rng):
    """Depots of one post cost the same, or a second less."""
    words = rng.choice([ties, ties, stops_and_ties, crossing])(rng)
    return some_depots(rng, words, lambda old: rng.choice([old, old, old, max(old - 1, -most_cost(words[0], words[1]))]))


def depots_closed(rng):
    """Some depots are closed, in some books all of a post; by chance other choices too."""
    words = depots(rng)
    words = close(words, some(rng, depots_at(words), rng.choice([0.2, 0.5, 0.9])))
    return partly_closed(rng, words) if rng.random() < 0.3 else words


def depots_unreached(rng):
    """Only posts that no plan reaches have more than one closing choice."""
    while True:
        words = rng.choice([unreached, unreached, small, few, stops_unreached])(rng)
        book = ref.Book(words)
        far = [post for post in last_posts(book) if post not in reachable(book)]
        if far:
            return with_depots(rng, words, lambda post: rng.randint(2, MOST_CHOICES) if post in far else 1, any_cost(rng, words))


def depots_wide(rng):
    """Up to sixteen last posts, with up to eight depots each; most plans reach few of them."""
    scale, stages = scale_of(rng), rng.randint(1, 3)
    sizes = random_sizes(rng, stages - 1, 3) + [rng.choice([8, 15, 16])]
    return some_depots(rng, fill(rng, scale, sizes, 4, 2, costs_within(rng, most_cost(scale, stages)), rng.choice([2, 12])))


def depots_edge(rng):
    """A depot costs as much as question 13 allows, or a second more, at a post that is reached or not."""
    scale, stages = edge_sizes(rng)
    limit = most_cost(scale, stages)
    words = some_depots(rng, fill(rng, scale, random_sizes(rng, stages, 2), 2, 2, lambda r: r.choice([limit, -limit, 0, 1]), 8))
    return with_cost(words, [rng.choice(depots_at(words))], rng.choice([limit, -limit, limit + 1, -limit - 1]))


def depots_vast(rng):
    """64 posts and up to 2,048 lines, with up to eight depots at each last post."""
    while True:
        words = some_depots(rng, rng.choice([vast, stops_vast])(rng))
        if words[2] <= MOST_LINES:
            return words if rng.random() < 0.7 else close(words, some(rng, depots_at(words), 0.3))


WITH_DEPOTS = [depots, depots_eight, depots_alone, depots_and_ties, depots_closed, depots_unreached, depots_wide, depots_edge]
ALL_SHAPES = SHAPES + WITH_CLOSED + WITH_DEPOTS


# ---- books that the reference can enumerate

def days_at_most(words):
    """The most days that a plan of an accepted book without closed choices can have: all that go on to a next post, and one if it stops."""
    book = ref.Book(words)
    most = [1] * book.posts
    for post in reversed(range(book.first[book.stages])):
        most[post] = max(sum(most[step] for step, _ in book.next_posts(post, c)) + (ref.missing_part(book, post, c) > 0) for c in range(book.counts[post]))
    return most[0]


def feasible(words, plans=MOST_PLANS, walks=MOST_WALKS):
    """Can the reference enumerate it? A book that it refuses costs nothing. With closed choices it begins no more rows than there would be plans if every choice
    were open."""
    if ref.check(words):
        return True
    words = opened(words)
    most = min(plans, walks // days_at_most(words))
    return count_plans(words, most) <= most


def count_plans(words, most):
    """How many plans an accepted book has, or most + 1."""
    return sum(1 for _ in itertools.islice(ref.plans(ref.Book(words)), most + 1))


def draw(rng, shape):
    """A book of the shape that the reference can enumerate."""
    if shape in (many, stops_many):
        return draw_many(rng, shape)
    while True:
        words = shape(rng)
        if feasible(words):
            return words


def draw_many(rng, shape):
    """From 1,000 to 20,000 plans."""
    while True:
        words = shape(rng)
        if not ref.check(words) and days_at_most(words) <= 64 and 1000 <= count_plans(words, 20000) <= 20000:
            return words


# ---- books with an exact number of plans

MOST_TRIES = 200


def lane(rng, total, stages, last):
    """Posts, one a stage, of which the first has so many plans from there on, or None. Each is a pair: c of its choices lead on to the next post of the lane and
    d do not, so that it has c times the plans of that one and d more. The last post has 1 to `last` choices."""
    for _ in range(MOST_TRIES):
        found, left = [], total
        for _ in range(stages):
            c = rng.randint(1, min(MOST_CHOICES, left))
            found.append((c, left % c))
            left //= c
        if left <= last and all(c + d <= MOST_CHOICES for c, d in found):
            return found + [(left, 0)]
    return None


def one_lane(rng, total, stages, last):
    """(the choices of post 0, each with the numbers of the lanes that it leads to; the lanes), or None."""
    found = lane(rng, total, stages, last)
    return found and ([(0,)] * found[0][0] + [()] * found[0][1], [found[1:]])


def two_lanes(rng, total, stages, last):
    """As one_lane. A choice that leads to both lanes has the product of their plans."""
    both, first, second, plans = rng.randint(1, 3), rng.randint(0, 2), rng.randint(0, 2), rng.randint(2, 200)
    others, none = divmod(total - first * plans, both * plans + second)
    if others < 1 or both + first + second + none > MOST_CHOICES:
        return None
    lanes = [lane(rng, n, stages - 1, last) for n in (plans, others)]
    return ([(0, 1)] * both + [(0,)] * first + [(1,)] * second + [()] * none, lanes) if all(lanes) else None


def add_closed(rng, ways, names):
    """Adds up to two closed choices, and as many that lead to the dead end of the next stage; each choice is (is it open, names of its next posts)."""
    for _ in range(rng.randrange(3)):
        ways.append((False, (rng.choice(names),) if names else ()))
    for _ in range(rng.randrange(3) if names else 0):
        ways.append((True, rng.choice([('dead',), ('dead', rng.choice([name for name in names if name != 'dead']))])))
    del ways[MOST_CHOICES:]


def ways_from(rng, name, lanes, n, names, stops):
    """The choices of a post of stage n from 1 on, without those that add no plan. A side post has one plan, a dead end none; a far one is not reached."""
    def side():
        return () if not names or stops and rng.random() < 0.5 else ('side',)
    if name == 'side':
        return [(True, side())]
    if name == 'far':
        return [(True, (rng.choice(['far', 0]),) if names else ()) for _ in range(rng.randint(1, MOST_CHOICES))]
    if name == 'dead':
        ways = [(True, ('dead',))] * rng.randrange(3) if names and n % 2 else []    # two stages deep at most, so that few rows are begun in vain
        return ways + [(False, side())] * rng.randint(1, 2)
    c, d = lanes[name][n - 1]
    on = [(name,) + (('side',) if rng.random() < 0.3 else ()) if names else () for _ in range(c)]
    return [(True, way) for way in on] + [(True, side()) for _ in range(d)]


def exactly(rng, total, stops=False, closed=False, depots=False, tied=False):
    """An accepted book with so many plans, from 1 to some thousands. It has a lane or two, side posts and by chance posts that no plan reaches. Where it is asked
    for, days may stop, choices are closed and lead to dead ends, posts of stage H have several choices, and all choices cost the same."""
    found = None
    while not found:
        stages = rng.randint(5, 8)
        found = rng.choice([one_lane, two_lanes])(rng, total, stages, MOST_CHOICES if depots else 1)
    heads, lanes = found
    names = ['side', *range(len(lanes))] + ['dead'] * closed + ['far'] * rng.randrange(2)
    order = [[None]] + [rng.sample(names, len(names)) for _ in range(stages)]
    scale = rng.choice([2, 3, 10, 100])
    cost = (lambda r: 7) if tied else costs_within(rng, most_cost(scale, stages))

    def lines(n, way):
        sum_ = rng.randint(len(way), scale) if stops and rng.random() < 0.5 else scale
        return list(zip(sorted(order[n + 1].index(name) for name in way), weights(rng, sum_, len(way)))) if way else []
    rows = []
    for n, here in enumerate(order):
        after = names if n < stages else []
        for name in here:
            if name is None:
                ways = [(True, way or (() if stops and rng.random() < 0.5 else ('side',))) for way in heads]
            else:
                ways = ways_from(rng, name, lanes, n, after, stops)
            if closed and name not in ('dead', 'far'):
                add_closed(rng, ways, after)
            if n == stages and not depots:
                del ways[1:]
            rng.shuffle(ways)
            rows.append([(cost(rng) if is_open else ref.CLOSED, lines(n, way)) for is_open, way in ways])
    return build(scale, [len(here) for here in order], rows)


# ---- broken books

class Places:
    """Where the words of an accepted book stand."""

    def __init__(self, words):
        book = ref.Book(words)
        self.book, self.scale, self.stages, self.posts = book, book.scale, book.stages, book.posts
        self.sizes = range(3, 4 + book.stages)
        self.counts = range(4 + book.stages, 4 + book.stages + book.posts)
        self.left = 4 + book.stages + book.posts
        self.right = self.left + book.lines
        self.heads, self.steps, self.last_heads = [], [], []
        line = 0
        for post in range(book.posts):
            for _, rows in book.choices[post]:
                (self.heads if book.stage[post] < book.stages else self.last_heads).append(line)
                if rows:
                    self.steps.append(range(line + 1, line + 1 + len(rows)))
                line += 1 + len(rows)


def break_1(rng, words, at):
    del words[rng.randint(0, 2):]


def break_2(rng, words, at):
    words[0] = rng.choice([0, -1, 101, WORST, -WORST - 1, -at.scale])


def break_3(rng, words, at):
    words[1] = rng.choice([0, -1, 9, WORST, -WORST - 1])


def break_4(rng, words, at):
    words[2] = rng.choice([0, -1, 2049, WORST, -WORST - 1])


def break_5(rng, words, at):
    del words[rng.randint(3, 3 + at.stages):]


def break_6(rng, words, at):
    kind = rng.randrange(3)
    if kind == 0:
        words[3] = rng.choice([0, 2, -1, 64])
    elif kind == 1:
        words[rng.choice(at.sizes[1:])] = rng.choice([0, -1, 17, WORST, -WORST - 1])
    else:
        for i in at.sizes[1:]:
            words[i] = 16 if at.stages >= 4 else 17


def break_7(rng, words, at):
    kind = rng.randrange(4)
    if kind == 0:
        words.append(rng.choice([0, 1, -1]))
    elif kind == 1:
        del words[rng.randint(4 + at.stages, len(words) - 1):]
    elif kind == 2:
        words[2] += rng.choice([1, -1]) if 1 < words[2] < MOST_LINES else 0
    else:
        words[rng.choice(at.sizes[1:])] = rng.randint(1, 16)


def break_8(rng, words, at):
    """A count that is not allowed; or one closing choice more than the lines have, a fault of 9."""
    if rng.random() < 0.3:
        words[rng.choice(at.counts[-words[3 + at.stages]:])] = 2
    else:
        words[rng.choice(at.counts)] = rng.choice([0, -1, 9, WORST, -WORST - 1])


def break_9(rng, words, at):
    kind = rng.randrange(5)
    if kind == 0:
        words[at.left + rng.choice(at.heads)] = rng.choice([0, -1, 7, WORST, -WORST - 1])
    elif kind == 1:
        words[at.left + rng.choice(at.last_heads)] = rng.choice([1, -1, WORST])
    elif kind == 2:
        words[at.left + rng.choice(at.heads)] += rng.choice([1, -1])
    elif kind == 3:
        post = rng.randrange(at.posts - at.book.sizes[at.stages])
        words[at.counts[post]] = words[at.counts[post]] % 8 + 1
    elif words[2] < MOST_LINES:
        words[2] += 1
        words.insert(at.right, rng.choice([0, 0, 1]))
        words.append(rng.choice([0, 1]))


def break_10(rng, words, at):
    words[at.right + rng.choice(at.heads + at.last_heads)] = rng.choice([100001, -100001, WORST, -WORST - 1])


def break_11(rng, words, at):
    rows = rng.choice(at.steps)
    kind = rng.randrange(3)
    if kind == 0:
        words[at.left + rows[-1]] = rng.choice([16, 17, -1, WORST, -WORST - 1])
    elif kind == 1 and len(rows) > 1:
        words[at.left + rows[1]] = words[at.left + rows[0]]
    else:
        words[at.left + rng.choice(rows)] += rng.choice([1, -1])


def break_12(rng, words, at):
    rows = rng.choice(at.steps)
    line = at.right + rng.choice(rows)
    above = words[line] + at.scale + 1 - sum(words[at.right + i] for i in rows)    # with it the sum is D + 1
    words[line] = rng.choice([0, -1, at.scale + 1, above, words[line] - 1, WORST, -WORST - 1])


def break_13(rng, words, at):
    """Costs that may be too large for the scale and the stages; the scale and all weights are left."""
    words[at.right + rng.choice(at.heads + at.last_heads)] = rng.choice([1, -1]) * min(100000, most_cost(at.scale, at.stages) + 1)


BREAKS = [break_1, break_2, break_3, break_4, break_5, break_6, break_7, break_8, break_9, break_10, break_11, break_12, break_13]


def broken(rng, words, faults):
    """The book with each fault of the list, those that change the length last."""
    at, words = Places(words), list(words)
    for fault in sorted(faults, key=lambda f: (f in (break_7, break_5, break_1), f.__name__)):
        try:
            fault(rng, words, at)
        except (IndexError, ValueError):
            pass
    return [max(-WORST - 1, min(WORST, word)) for word in words]    # where two faults meet in a word it may leave 32 bits


def break_mark(rng, words, at):
    """A cost near the mark, or the mark where no cost stands; next posts, weights and r of a closed choice are asked as of any other."""
    kind = rng.randrange(6)
    if kind < 3:
        words[at.right + rng.choice(at.heads + at.last_heads)] = rng.choice([-ref.CLOSED, ref.CLOSED - 1, ref.CLOSED + 1, 100001])
    elif kind < 5:
        words[rng.choice([at.left, at.right]) + rng.choice(rng.choice(at.steps))] = ref.CLOSED
    else:
        words[at.left + rng.choice(at.heads + at.last_heads)] = ref.CLOSED


BREAKS_CLOSED = BREAKS[9:] + [break_mark] * 3


def with_row(words, post, choice, lines):
    """The book with other lines below the first of one choice."""
    book = ref.Book(words)
    book.choices[post][choice] = book.choices[post][choice][0], lines
    return build(book.scale, book.sizes, book.choices)


def seven(rng):
    """A choice, of a post that is reached or not, with 7 next posts or more and a line for each: with 7 nothing but the limit of question 9 is amiss."""
    words = [0]
    while words[0] < 7:
        words = rng.choice([six, stops_six])(rng)
    r = rng.choice([7, 7, 7, 8, 16, 17])
    parts = weights(rng, rng.randint(7, words[0]), 7) if r == 7 else [1] * r
    return with_row(words, *rng.choice(deciding(ref.Book(words))), list(zip(range(r), parts)))


def break_depots(rng, words, at):
    """A count of depots that is not allowed, or that the lines do not have; or a depot with a line or with a cost that is not allowed."""
    kind, count, line = rng.randrange(4), rng.choice(at.counts[-words[3 + at.stages]:]), rng.choice(at.last_heads)
    if kind == 0:
        words[count] = rng.choice([0, -1, 9, WORST, -WORST - 1])
    elif kind == 1:
        words[count] = words[count] % MOST_CHOICES + 1
    elif kind == 2:
        words[at.left + line] = rng.choice([1, -1, 6, WORST])
    else:
        words[at.right + line] = rng.choice([100001, -100001, ref.CLOSED + 1, WORST, -WORST - 1])


BREAKS_DEPOTS = BREAKS[7:10] + [break_depots] * 3


def nine(rng):
    """A last post, reached or not, with nine closing choices or more and a line for each: nothing but question 8 is amiss."""
    book = ref.Book(rng.choice([depots, depots_alone, depots_unreached])(rng))
    here = book.choices[rng.choice(last_posts(book))]
    here += [rng.choice(here) for _ in range(rng.choice([9, 9, 10, 16]) - len(here))]
    return build(book.scale, book.sizes, book.choices)


def wild(rng):
    """Words that are no book, or nearly one."""
    kind = rng.randrange(3)
    if kind == 0:
        return [rng.randint(-WORST - 1, WORST) for _ in range(rng.randrange(12))]
    if kind == 1:
        return [rng.randint(0, 3) for _ in range(rng.randrange(40))]
    return [2, 1, 7] + [rng.randint(0, 3) for _ in range(19)]


# ---- plans and slices that are none

def bent_plan(rng, words, plan):
    """A plan with a fault, or by chance another plan."""
    plan = list(plan)
    kind = rng.randrange(5)
    if kind == 0:
        return plan[:-1]
    if kind == 1:
        return plan + [rng.choice([0, 255])]
    if kind == 2:
        return [0 if c == 255 else c for c in plan]
    i = rng.randrange(len(plan))
    plan[i] = rng.choice([255, 0, 1, 8, 254, ref.Book(words).counts[i]])
    return plan
