//! Speed of the library against the same calls in ordinary Rust, as ratios: library time / Rust time, the median of many runs in turn. Of small books also
//! going through all plans against the main engine.
//! First both are asserted to give equal results on every book and table that is timed, and on many small and spoiled ones.

mod baseline;

use kbest::{Kept, Standing};
use std::hint::black_box;
use std::time::Instant;

/// A small generator, so that every run times the same books.
struct Random(u64);

impl Random {
    fn next(&mut self) -> u64 {
        self.0 ^= self.0 << 13;
        self.0 ^= self.0 >> 7;
        self.0 ^= self.0 << 17;
        self.0
    }

    /// From low to high.
    fn from(&mut self, low: i32, high: i32) -> i32 {
        low + (self.next() % (high - low + 1) as u64) as i32
    }
}

/// What a book of random costs and weights looks like. `transitions(i)` is how many next posts the i-th choice has. Of 100 choices before the last stage,
/// `stops` leave a part of the scale missing; these have as many next posts or fewer. `closed` of 100 are closed. A post of the last stage has `depots`
/// choices; where there are several, `closed` of 100 of these are closed too.
struct Shape<'a> {
    scale: i32,
    sizes: &'a [i32],
    choices: i32,
    costs: (i32, i32),
    transitions: &'a dyn Fn(usize) -> i32,
    stops: i32,
    closed: i32,
    depots: i32,
}

fn random_book(rng: &mut Random, shape: &Shape) -> Vec<i32> {
    let (mut counts, mut left, mut right) = (vec![], vec![], vec![]);
    let last = shape.sizes.len() - 1;
    let mut made = 0;
    for (stage, &size) in shape.sizes.iter().enumerate() {
        for _ in 0..size {
            let count = if stage == last { shape.depots } else { shape.choices };
            counts.push(count);
            for _ in 0..count {
                let (r, sum) = if stage == last { (0, 0) } else { lines_of(rng, shape, (shape.transitions)(made).min(shape.sizes[stage + 1])) };
                made += 1;
                left.push(r);
                right.push(cost_of(rng, shape, stage < last || count > 1));
                if r > 0 {
                    left.extend(some_of(rng, shape.sizes[stage + 1], r));
                    right.extend(parts_of(rng, sum, r));
                }
            }
        }
    }
    let mut words = vec![shape.scale, last as i32, left.len() as i32];
    words.extend_from_slice(shape.sizes);
    words.extend(counts);
    words.extend(left);
    words.extend(right);
    words
}

/// How many next posts a choice has and what their weights add to: the scale, or less where the tour may stop. Without a next post the stop is sure.
fn lines_of(rng: &mut Random, shape: &Shape, most: i32) -> (i32, i32) {
    if shape.stops == 0 || rng.from(1, 100) > shape.stops {
        return (most.min(shape.scale), shape.scale);
    }
    let r = rng.from(0, most.min(shape.scale - 1));
    (r, rng.from(r, shape.scale - 1))
}

/// A cost, or the mark of a closed choice.
fn cost_of(rng: &mut Random, shape: &Shape, may_close: bool) -> i32 {
    let cost = rng.from(shape.costs.0, shape.costs.1);
    if may_close && shape.closed > 0 && rng.from(1, 100) <= shape.closed {
        kbest::CLOSED
    } else {
        cost
    }
}

/// r numbers below n that rise strictly.
fn some_of(rng: &mut Random, n: i32, r: i32) -> Vec<i32> {
    let mut left = r;
    (0..n)
        .filter(|i| {
            let taken = rng.from(1, n - i) <= left;
            left -= taken as i32;
            taken
        })
        .collect()
}

/// r numbers from 1 on whose sum is d.
fn parts_of(rng: &mut Random, d: i32, r: i32) -> Vec<i32> {
    let mut cuts: Vec<i32> = some_of(rng, d - 1, r - 1).iter().map(|c| c + 1).collect();
    cuts.push(d);
    let mut before = 0;
    cuts.iter().map(|&c| c - std::mem::replace(&mut before, c)).collect()
}

const BOOK_A: [i32; 22] = [2, 1, 7, 1, 2, 2, 1, 1, 2, 0, 1, 1, 0, 0, 0, 10, 1, 1, 12, 2, 4, 9];
const BOOK_C: [i32; 32] = [
    1, 2, 11, 1, 2, 1, 2, 2, 1, 1, 1, 0, 1, 1, 1, 0, 1, 0, 1, 0, 0, 5, 1, 3, 1, 1, 1, 4, 1, 2, 1, 0,
];

/// Book A with eight depots at each of its last posts.
const BOOK_A_DEPOTS: [i32; 50] = [
    2, 1, 21, 1, 2, 2, 8, 8, 2, 0, 1, 1, 0, 0, 0, 0, 0, 0, 0, 0, 0, 0, 0, 0, 0, 0, 0, 0, 0, 10, 1, 1, 12, 2, 4, 7, 5, 9, 4, 8, 6, 11, 9, 3, 12, 7, 3, 10, 5, 6,
];

fn typical(rng: &mut Random, stops: i32, closed: i32, depots: i32) -> Vec<i32> {
    random_book(rng, &Shape { scale: 100, sizes: &[1, 6, 6, 6, 6], choices: 3, costs: (-500, 3000), transitions: &|_| 3, stops, closed, depots })
}

const LARGEST: [i32; 9] = [1, 7, 8, 8, 8, 8, 8, 8, 8];

/// 64 posts, H = 8, 2,048 lines: every other choice has 6 next posts.
fn largest(rng: &mut Random, costs: (i32, i32), closed: i32) -> Vec<i32> {
    let transitions = |i: usize| if i % 2 == 0 { 6 } else { 1 + (i < 48) as i32 };
    random_book(rng, &Shape { scale: 10, sizes: &LARGEST, choices: 8, costs, transitions: &transitions, stops: 0, closed, depots: 1 })
}

/// The same sizes with eight choices at every post of the last stage too.
fn largest_with_depots(rng: &mut Random) -> Vec<i32> {
    let transitions = |i: usize| if i % 2 == 0 { 6 - (i < 64) as i32 } else { 1 };
    random_book(rng, &Shape { scale: 10, sizes: &LARGEST, choices: 8, costs: (-500, 3000), transitions: &transitions, stops: 0, closed: 0, depots: 8 })
}

/// The book with every choice of the last stage closed: it has no plan unless a tour can stop surely.
fn closed_at_last(mut book: Vec<i32>) -> Vec<i32> {
    let closing = book[3 + book[1] as usize] as usize;
    let from = book.len() - closing;
    book[from..].fill(kbest::CLOSED);
    book
}

/// A book in which every choice leads to all posts of the next stage, so that it has as many plans as the product of `counts`, the choices of each post.
fn joined_book(rng: &mut Random, sizes: &[i32], counts: &[i32]) -> Vec<i32> {
    const SCALE: i32 = 10;
    let (mut left, mut right, mut post) = (vec![], vec![], 0);
    for (stage, &size) in sizes.iter().enumerate() {
        let nexts = sizes.get(stage + 1).copied().unwrap_or(0);
        for _ in 0..size {
            for _ in 0..counts[post] {
                left.push(nexts);
                left.extend(0..nexts);
                right.push(rng.from(-500, 3000));
                if nexts > 0 {
                    right.extend(parts_of(rng, SCALE, nexts));
                }
            }
            post += 1;
        }
    }
    [&[SCALE, sizes.len() as i32 - 1, left.len() as i32], sizes, counts, &left, &right].concat()
}

/// 2^n plans by one post a stage, two posts at least: n of them have two choices, and some have four where nine with two are too few.
fn chain(rng: &mut Random, n: usize) -> Vec<i32> {
    let mut counts = vec![2; n.min(9)];
    counts[..n.saturating_sub(9)].fill(4);
    counts.resize(counts.len().max(2), 1);
    joined_book(rng, &vec![1; counts.len()], &counts)
}

/// 2^n plans by thirteen posts, three at each stage but the first: n of them, evenly apart, have two choices. Before the last stage a choice has three lines.
fn wide(rng: &mut Random, n: usize) -> Vec<i32> {
    let counts: Vec<i32> = (0..13).map(|post| 1 + ((post + 1) * n / 13 - post * n / 13) as i32).collect();
    joined_book(rng, &[1, 3, 3, 3, 3], &counts)
}

/// A book with its name and how many plans it has.
struct Small {
    name: String,
    plans: usize,
    book: Vec<i32>,
}

impl Small {
    fn new(name: &str, book: Vec<i32>) -> Small {
        let plans = baseline::plans(&book);
        Small { name: format!("{name}, {plans} plan{}", if plans == 1 { "" } else { "s" }), plans, book }
    }
}

/// Books of 1 to 4,096 plans.
fn small_books() -> Vec<Small> {
    const POWERS: [usize; 12] = [0, 1, 2, 3, 4, 5, 6, 7, 8, 9, 10, 12];
    let rng = &mut Random(693147180);
    let mut books = vec![];
    for (name, make) in [("chain", chain as fn(&mut Random, usize) -> Vec<i32>), ("wide", wide)] {
        for n in POWERS {
            let small = Small::new(name, make(rng, n));
            assert_eq!(small.plans, 1 << n, "{}", small.name);
            books.push(small);
        }
    }
    for (name, book) in [("book A", &BOOK_A[..]), ("book C", &BOOK_C), ("depots (book A)", &BOOK_A_DEPOTS)] {
        books.push(Small::new(name, book.to_vec()));
    }
    books
}

/// The book with one choice more at post 0, a sure stop: one plan more.
fn with_stop(book: &[i32]) -> Vec<i32> {
    let (count, lines) = (4 + book[1] as usize, book[2] as usize);
    let left = count + posts(book);
    let of_post_0 = (0..book[count]).fold(0, |line, _| line + 1 + book[left + line] as usize);
    let mut more = book.to_vec();
    more.insert(left + lines + of_post_0, 0);
    more.insert(left + of_post_0, 0);
    more[count] += 1;
    more[2] += 1;
    more
}

/// What a planners' table of random rewards and weights looks like. `counts` has the choices of each state, `transitions(i)` is how many next states the
/// i-th choice has.
struct TableShape<'a> {
    scale: i32,
    stages: i32,
    first: i32,
    counts: &'a [i32],
    rewards: (i32, i32),
    transitions: &'a dyn Fn(usize) -> i32,
}

fn random_table(rng: &mut Random, shape: &TableShape) -> Vec<i32> {
    let states = shape.counts.len() as i32;
    let (mut left, mut right) = (vec![], vec![]);
    for i in 0..shape.counts.iter().sum::<i32>() as usize {
        let r = (shape.transitions)(i).min(states).min(shape.scale);
        left.push(r);
        left.extend(some_of(rng, states, r));
        right.push(rng.from(shape.rewards.0, shape.rewards.1));
        right.extend(parts_of(rng, shape.scale, r));
    }
    left.extend(shape.counts.iter().map(|_| 0));
    right.extend(shape.counts.iter().map(|_| rng.from(shape.rewards.0, shape.rewards.1)));
    let mut words = vec![shape.scale, shape.stages, states, shape.first, left.len() as i32];
    words.extend_from_slice(shape.counts);
    words.extend(left);
    words.extend(right);
    words
}

/// The table of docs/FORMAT.md.
const TABLE: [i32; 25] = [2, 2, 2, 1, 9, 1, 2, 1, 0, 2, 0, 1, 1, 1, 0, 0, 3, 2, 5, 1, 1, -1, 2, 4, -7];

/// Its book has the sizes of the typical book.
fn typical_table(rng: &mut Random) -> Vec<i32> {
    random_table(rng, &TableShape { scale: 100, stages: 4, first: 0, counts: &[3; 6], rewards: (-3000, 500), transitions: &|_| 3 })
}

/// Its book has 64 posts, H = 7 and 2,048 lines.
fn largest_table(rng: &mut Random) -> Vec<i32> {
    let transitions = |i: usize| 3 + (5..51).contains(&i) as i32;
    random_table(rng, &TableShape { scale: 10, stages: 7, first: 0, counts: &[8; 9], rewards: (-3000, 500), transitions: &transitions })
}

/// Many of these have a book that is refused: too many posts, lines or next posts, or the bound.
fn any_table(rng: &mut Random) -> Vec<i32> {
    let (most_states, most_nexts) = ([7, 7, 7, 16][rng.from(0, 3) as usize], [6, 6, 6, 9][rng.from(0, 3) as usize]);
    let states = rng.from(1, most_states);
    let counts: Vec<i32> = (0..states).map(|_| rng.from(1 + states / 4, 8)).collect();
    let (scale, stages, first) = (rng.from(1, 100), rng.from(1, 8), rng.from(0, states - 1));
    let (most, rewards) = (rng.from(1, most_nexts), [9, 3000, 100_000][rng.from(0, 2) as usize]);
    random_table(rng, &TableShape { scale, stages, first, counts: &counts, rewards: (-rewards, rewards), transitions: &|i| 1 + i as i32 % most })
}

/// Room for a whole answer.
struct Room {
    costs: [i64; 64],
    plans: [u8; 4096],
    record: Vec<u8>,
}

impl Room {
    fn new() -> Room {
        Room { costs: [7; 64], plans: [7; 4096], record: vec![7; kbest::RECORD_MOST] }
    }
}

fn number<T>(answer: Result<T, kbest::Refused>, none: T) -> (u32, T) {
    answer.map_or_else(|r| (r.number(), none), |t| (0, t))
}

/// What finding and keeping a limit have given: refusals, and each of the three answers. What going through all plans has: lists, refusals with 30 and others.
#[derive(Default)]
struct Given {
    finds: [usize; 4],
    limits: [usize; 4],
    smalls: [usize; 3],
}

fn assert_equal(book: &[i32], given: &mut Given) {
    let (sought, limits) = (sought(book), limits(book));
    let mut no = number(kbest::check(book), ()).0;
    assert_eq!(no, baseline::check(book), "check of {book:?}");
    assert_eq!(number(kbest::least(book), 0), baseline::least(book), "least of {book:?}");
    for k in [0, 1, 2, 3, 8, 64, 65] {
        let (mut a, mut b) = (Room::new(), Room::new());
        let ranked = number(kbest::rank(book, k, &mut a.costs, &mut a.plans), 0);
        assert_eq!(ranked, baseline::rank(book, k, &mut b.costs, &mut b.plans), "rank of {book:?}");
        assert!(a.costs == b.costs && a.plans == b.plans, "list of {book:?}");
        assert_equal_values(book, &mut a.plans, ranked.1);
        assert_equal_small(book, k, given);
        for plan in &sought {
            let found = find_library(book, k, plan);
            assert_eq!(found, baseline::find(book, k, plan), "find of {plan:?} in {book:?}");
            given.finds[found.1 as usize] += 1;
        }
        for (marks, m) in &limits {
            let kept = limit_library(book, k, marks, *m);
            assert_eq!(kept, baseline::limit(book, k, marks, *m), "at most {m} of {marks:?} in {book:?}");
            given.limits[kept.1 as usize] += 1;
        }
        let written = number(kbest::write(book, k, &mut a.record), 0);
        assert_eq!(written, baseline::write(book, k, &mut b.record), "write of {book:?}");
        assert!(a.record == b.record, "record of {book:?}");
        no = written.0;
        for at in [None, Some(4), Some(8), Some(written.1.saturating_sub(1)), Some(12)] {
            let mut record = a.record[..written.1].to_vec();
            if let Some(byte) = at.and_then(|i| record.get_mut(i)) {
                *byte ^= 1;
            }
            let accepted = assert_equal_accept(&record);
            assert!(no != 0 || at.is_some() || accepted == 0);
        }
        if no == 28 {
            assert_equal_without_plan(book, k);
        }
    }
}

/// Going through all plans, in slices that are long enough and in one that is too short: both give the same, and the list is that of ranking.
fn assert_equal_small(book: &[i32], k: usize, given: &mut Given) {
    let s = if kbest::check(book).is_ok() { posts(book) } else { 1 };
    for (few, short) in [(0, 0), (1, 0), (0, 1)] {
        let (places, bytes) = (k.min(64).saturating_sub(few), (k.min(64) * s).saturating_sub(short));
        let (mut a, mut b, mut c) = (Room::new(), Room::new(), Room::new());
        let small = number(kbest::rank_small(book, k, &mut a.costs[..places], &mut a.plans[..bytes]), 0);
        assert_eq!(small, baseline::rank_small(book, k, &mut b.costs[..places], &mut b.plans[..bytes]), "going through {book:?}");
        assert!(a.costs == b.costs && a.plans == b.plans, "list by going through {book:?}");
        if small.0 != 30 {
            let ranked = number(kbest::rank(book, k, &mut c.costs[..places], &mut c.plans[..bytes]), 0);
            assert!(small == ranked && a.costs == c.costs && a.plans == c.plans, "both lists of {book:?}");
        }
        given.smalls[match small.0 { 0 => 0, 30 => 1, _ => 2 }] += 1;
    }
}

/// Small books, and for each one with a plan more.
fn assert_small_lists(smalls: &[Small], given: &mut Given) {
    for Small { name, plans, book } in smalls {
        assert_eq!(kbest::check(book), Ok(()), "a timed book is accepted");
        let more = with_stop(book);
        assert_eq!(baseline::plans(&more), plans + 1, "{name}, with a stop");
        for k in [0, 1, 2, 8, 63, 64, 65] {
            assert_equal_small(book, k, given);
            assert_equal_small(&more, k, given);
        }
    }
}

/// The number that a record gets.
fn assert_equal_accept(record: &[u8]) -> u32 {
    let accepted = kbest::accept(record).map_or_else(|r| (r.number(), 0, 0), |x| (0, x.posts, x.listed));
    assert_eq!(accepted, baseline::accept(record), "accept of {record:?}");
    accepted.0
}

/// The bytes of a record with any K and k, and zeros for the costs and plans.
fn as_record(book: &[i32], most: usize, listed: usize) -> Vec<u8> {
    let mut record: Vec<u8> = [book.len(), most, listed].iter().flat_map(|&figure| (figure as u32).to_le_bytes()).collect();
    record.extend(book.iter().flat_map(|word| word.to_le_bytes()));
    record.resize(record.len() + listed * (8 + posts(book)), 0);
    record
}

/// A book that has no plan: records with several k, slices that are short, and a plan.
fn assert_equal_without_plan(book: &[i32], most: usize) {
    for listed in [0, 1, most, most + 1] {
        assert_eq!(assert_equal_accept(&as_record(book, most, listed)), 28);
    }
    for (costs, plans) in [(0, 4096), (64, 0), (64, 4096)] {
        let (mut a, mut b) = (Room::new(), Room::new());
        let ranked = number(kbest::rank(book, most, &mut a.costs[..costs], &mut a.plans[..plans]), 0);
        assert_eq!(ranked, baseline::rank(book, most, &mut b.costs[..costs], &mut b.plans[..plans]), "rank of {book:?}");
    }
    let plan = vec![0; posts(book)];
    assert_eq!(number(kbest::value(book, &plan), 0), baseline::value(book, &plan), "value of {plan:?} in {book:?}");
}

/// S of an accepted book.
fn posts(book: &[i32]) -> usize {
    book[3..4 + book[1] as usize].iter().sum::<i32>() as usize
}

/// Plans to find: some of the list of 64, on both sides of where shorter lists end, each also with one byte changed; any bytes where there is no list.
fn sought(book: &[i32]) -> Vec<Vec<u8>> {
    let mut room = Room::new();
    let listed = rank_library(book, 64, &mut room);
    if listed == 0 {
        return vec![vec![], vec![0; 3]];
    }
    let s = posts(book);
    let mut plans = vec![];
    for j in [0, 1, 2, 3, 7, 8, 63].into_iter().filter(|&j| j < listed) {
        let mut plan = room.plans[j * s..(j + 1) * s].to_vec();
        plans.push(plan.clone());
        plan[j * 7 % s] ^= 1;
        plans.push(plan);
    }
    plans
}

/// The number, which of the three answers, and its figure.
fn find_library(book: &[i32], k: usize, plan: &[u8]) -> (u32, u32, i64) {
    match kbest::find(book, k, plan) {
        Err(refused) => (refused.number(), 0, 0),
        Ok(Standing::Listed(rank)) => (0, 1, rank as i64),
        Ok(Standing::CostsMore(amount)) => (0, 2, amount),
        Ok(Standing::TakesHigher(post)) => (0, 3, post as i64),
    }
}

/// How many choices an accepted book has.
fn choices(book: &[i32]) -> usize {
    let counts = 4 + book[1] as usize;
    book[counts..counts + posts(book)].iter().sum::<i32>() as usize
}

/// Marks and m: every choice, none, every other and every third, with m at both ends and between; then marks of a wrong length or value, and m out of range.
/// Any bytes where the book is refused.
fn limits(book: &[i32]) -> Vec<(Vec<u8>, usize)> {
    if kbest::check(book).is_err() {
        return vec![(vec![], 0), (vec![1; 3], 1)];
    }
    let (n, h) = (choices(book), book[1] as usize);
    let every = |step: usize| (0..n).map(|i| (i % step == 0) as u8).collect::<Vec<u8>>();
    let mut limits = vec![(vec![0; n], 0), (vec![1; n], h), (vec![1; n], 9)];
    limits.extend([(2, 0), (2, 1), (3, 0), (3, 1), (3, h / 2)].map(|(step, m)| (every(step), m)));
    let mut wrong = every(2);
    wrong[n / 2] = 2;
    limits.extend([(vec![0; n + 1], 1), (vec![0; n - 1], 1), (wrong, 1), (every(2), 10), (every(2), usize::MAX)]);
    limits
}

/// The number, which of the three answers, and the rank.
fn limit_library(book: &[i32], k: usize, marks: &[u8], m: usize) -> (u32, u32, usize) {
    match kbest::limit(book, k, marks, m) {
        Err(refused) => (refused.number(), 0, 0),
        Ok(Kept::Rank(rank)) => (0, 1, rank),
        Ok(Kept::NoneInList) => (0, 2, 0),
        Ok(Kept::NoneInBook) => (0, 3, 0),
    }
}

/// Values the plans of a list, each as listed and with one byte changed.
fn assert_equal_values(book: &[i32], plans: &mut [u8], listed: usize) {
    if listed == 0 {
        return;
    }
    for plan in plans.chunks_mut(posts(book)).take(listed) {
        for at in 0..plan.len() {
            assert_eq!(number(kbest::value(book, plan), 0), baseline::value(book, plan), "value of {plan:?} in {book:?}");
            plan[at] ^= 1;
            assert_eq!(number(kbest::value(book, plan), 0), baseline::value(book, plan), "value of {plan:?} in {book:?}");
            plan[at] ^= 1;
        }
    }
}

/// How many books were compared; the choices of half of them may stop, and `closed` of 100 choices are closed. Then some have a plan and some have none. A post
/// of the last stage has up to `most_depots` choices.
fn assert_small_books(rng: &mut Random, closed: i32, most_depots: i32, given: &mut Given) -> usize {
    let (mut compared, mut without_plan) = (0, 0);
    for round in 0..800 {
        let stops = if round % 2 == 0 { 0 } else { 50 };
        let sizes: Vec<i32> = (0..rng.from(2, 4)).map(|n| if n == 0 { 1 } else { rng.from(1, 7) }).collect();
        let (scale, choices, most) = (rng.from(1, 8), rng.from(1, 3), rng.from(1, 6));
        let depots = if most_depots == 1 { 1 } else { rng.from(2, most_depots) };
        let shape = Shape { scale, sizes: &sizes, choices, costs: (0, rng.from(0, 9)), transitions: &|i| 1 + (i as i32 % most), stops, closed, depots };
        let mut book = random_book(rng, &shape);
        assert_eq!(kbest::check(&book), Ok(()), "a book that is not spoiled is accepted: {book:?}");
        without_plan += kbest::least(&book).is_err() as i32;
        assert_equal(&book, given);
        let at = rng.from(0, book.len() as i32 - 1) as usize;
        book[at] += rng.from(-2, 2);
        assert_equal(&book, given);
        compared += 2;
        if round % 8 < 2 {
            book.truncate(at);
            assert_equal(&book, given);
            compared += 1;
        }
    }
    assert!(if closed == 0 { without_plan == 0 } else { (100..700).contains(&without_plan) }, "{without_plan} books have no plan");
    compared
}

/// The record of a book and 64.
fn record_of(book: &[i32]) -> Vec<u8> {
    let mut room = Room::new();
    let length = write_library(book, &mut room);
    room.record[..length].to_vec()
}

/// Calls at a desk, by riders that are there and one that is not, and for ranks that are listed and not; how many were compared.
fn assert_equal_desks(rng: &mut Random, record: &[u8]) -> usize {
    const CALLS: usize = 20000;
    let (mut a, mut b) = (kbest::Desk::fresh(), baseline::Desk::fresh());
    for i in 0..CALLS {
        let (rider, rank) = (rng.from(0, 16) as usize, rng.from(0, 18) as usize);
        let (got, want) = match if i % 500 == 0 { 4 } else { rng.from(0, 3) } {
            0 | 1 => (a.ask(rider, rank), b.ask(rider, rank)),
            2 => (a.cancel(rider), b.cancel(rider)),
            3 => (a.commit(rider), b.commit(rider)),
            _ => (a.open(record), b.open(record)),
        };
        assert_eq!(number(got, ()).0, want, "call {i} at a desk");
        for rider in 0..17 {
            assert_eq!(a.held(rider).unwrap_or(0), b.held(rider), "held after call {i}");
            assert_eq!(a.committed(rider).unwrap_or(0), b.committed.get(rider).map_or(0, |&rank| rank.into()), "committed after call {i}");
        }
        assert_eq!(a.count(), b.k.into());
    }
    CALLS
}

/// A table to a slice of `room` words; the number and the length.
fn assert_equal_books(table: &[i32], room: usize) -> (u32, usize) {
    let (mut a, mut b) = (vec![7; room], vec![7; room]);
    let converted = number(kbest::convert(table, &mut a), 0);
    assert_eq!(converted, baseline::convert(table, &mut b), "convert of {table:?}");
    assert!(a == b, "book of {table:?}");
    converted
}

/// The same to slices of several lengths: one that holds every book, one that holds every accepted book, a random one, and an accepted book's own length
/// and one word less. Marks the numbers that were given.
fn assert_equal_table(rng: &mut Random, table: &[i32], given: &mut [bool; 28]) {
    for room in [kbest::TABLE_BOOK_MOST, kbest::BOOK_MOST, rng.from(0, 999) as usize] {
        let (no, length) = assert_equal_books(table, room);
        given[no as usize] = true;
        if no == 0 {
            assert_eq!(assert_equal_books(table, length), (0, length));
            assert_eq!(assert_equal_books(table, length - 1), (27, 0));
        }
    }
}

/// Changes a word of a table, or a word of its right column and the next one so that their sum stays.
fn spoil(rng: &mut Random, table: &mut [i32], both: bool) {
    let low = if both { 5 + table[2] + table[4] } else { 0 };
    let at = rng.from(low, table.len() as i32 - 1 - both as i32) as usize;
    let by = rng.from(-2, 2);
    table[at] += by;
    if both {
        table[at + 1] -= by;
    }
}

/// How many tables were compared. Every number that a table can get is given.
fn assert_random_tables(rng: &mut Random) -> usize {
    const ROUNDS: usize = 1000;
    let mut given = [false; 28];
    for round in 0..ROUNDS {
        let table = match round % 4 {
            0 => typical_table(rng),
            1 => largest_table(rng),
            _ => any_table(rng),
        };
        assert!(round % 4 > 1 || kbest::convert(&table, &mut [0; kbest::BOOK_MOST]).is_ok(), "a table that is not spoiled is accepted: {table:?}");
        assert_equal_table(rng, &table, &mut given);
        for both in [false, true] {
            let mut spoiled = table.clone();
            spoil(rng, &mut spoiled, both);
            assert_equal_table(rng, &spoiled, &mut given);
        }
        let kept = rng.from(0, table.len() as i32 - 1) as usize;
        assert_equal_table(rng, &table[..kept], &mut given);
    }
    assert!([0, 4, 6, 9, 11, 12, 13, 25, 26, 27].iter().all(|&no| given[no]), "the numbers given: {given:?}");
    4 * ROUNDS
}

/// How many powers were compared: those that the documents name, those beyond on both sides, and the largest numbers.
fn assert_equal_powers() -> usize {
    let mut compared = 0;
    for d in (0..=102).chain([1 << 32, usize::MAX]) {
        for e in (0..=10).chain([1 << 32, usize::MAX]) {
            assert_eq!(kbest::power(d, e), baseline::power(d, e), "{d}^{e}");
            compared += 1;
        }
    }
    compared
}

/// Seconds of one call, by `repeats` of it.
fn time<T>(repeats: usize, call: &mut impl FnMut() -> T) -> f64 {
    let start = Instant::now();
    for _ in 0..repeats {
        black_box(call());
    }
    start.elapsed().as_secs_f64() / repeats as f64
}

fn median(mut values: Vec<f64>) -> f64 {
    values.sort_by(f64::total_cmp);
    values[values.len() / 2]
}

/// How often to call, so that a run is long enough for the clock.
fn repeats<T>(call: &mut impl FnMut() -> T) -> usize {
    const SECONDS: f64 = 100e-6;
    (SECONDS / time(20, call)).ceil().max(1.0) as usize
}

/// The median of first / second over many runs in turn.
fn ratio<S, T>(mut first: impl FnMut() -> S, mut second: impl FnMut() -> T) -> f64 {
    const RUNS: usize = 101;
    let (a, b) = (repeats(&mut first), repeats(&mut second));
    let mut one = |i: usize| {
        if i % 2 == 0 {
            let x = time(a, &mut first);
            x / time(b, &mut second)
        } else {
            let y = time(b, &mut second);
            time(a, &mut first) / y
        }
    };
    median((0..RUNS).map(&mut one).collect())
}

fn rank_library(book: &[i32], k: usize, room: &mut Room) -> usize {
    let listed = kbest::rank(black_box(book), black_box(k), &mut room.costs, &mut room.plans).unwrap_or(0);
    black_box(room);
    listed
}

fn rank_rust(book: &[i32], k: usize, room: &mut Room) -> usize {
    let listed = baseline::rank(black_box(book), black_box(k), &mut room.costs, &mut room.plans).1;
    black_box(room);
    listed
}

fn small_library(book: &[i32], k: usize, room: &mut Room) -> usize {
    let listed = kbest::rank_small(black_box(book), black_box(k), &mut room.costs, &mut room.plans).unwrap_or(0);
    black_box(room);
    listed
}

fn small_rust(book: &[i32], k: usize, room: &mut Room) -> usize {
    let listed = baseline::rank_small(black_box(book), black_box(k), &mut room.costs, &mut room.plans).1;
    black_box(room);
    listed
}

fn write_library(book: &[i32], room: &mut Room) -> usize {
    let length = kbest::write(black_box(book), 64, &mut room.record).unwrap_or(0);
    black_box(room);
    length
}

fn write_rust(book: &[i32], room: &mut Room) -> usize {
    let length = baseline::write(black_box(book), 64, &mut room.record).1;
    black_box(room);
    length
}

fn first_plan(book: &[i32]) -> Vec<u8> {
    let mut room = Room::new();
    rank_library(book, 1, &mut room);
    room.plans[..posts(book)].to_vec()
}

fn check_library(book: &[i32]) -> bool {
    kbest::check(black_box(book)).is_ok()
}

fn check_rust(book: &[i32]) -> bool {
    baseline::check(black_box(book)) == 0
}

/// One line of the table: library / Rust for each call.
fn ratios(name: &str, book: &[i32]) {
    let (mut a, mut b) = (Room::new(), Room::new());
    let check = ratio(|| check_library(book), || check_rust(book));
    let least = ratio(|| kbest::least(black_box(book)), || baseline::least(black_box(book)));
    let plan = first_plan(book);
    let value = ratio(|| kbest::value(black_box(book), black_box(&plan)), || baseline::value(black_box(book), black_box(&plan)));
    let ranks: Vec<f64> = [1, 8, 64].iter().map(|&k| ratio(|| rank_library(book, k, &mut a), || rank_rust(book, k, &mut b))).collect();
    let write = ratio(|| write_library(book, &mut a), || write_rust(book, &mut b));
    let length = write_library(book, &mut a);
    let record = &a.record[..length];
    let accept = ratio(|| kbest::accept(black_box(record)), || baseline::accept(black_box(record)));
    println!(
        "{name:28} {check:7.2} {value:7.2} {least:7.2} {:8.2} {:8.2} {:8.2} {write:8.2} {accept:8.2}",
        ranks[0], ranks[1], ranks[2]
    );
}

/// The same for finding the last plan of the list of 64 in the lists of 1, 8 and 64; in a book without a plan any bytes.
fn find_ratios(name: &str, book: &[i32]) {
    let mut room = Room::new();
    let s = posts(book);
    let at = rank_library(book, 64, &mut room).saturating_sub(1) * s;
    let plan = &room.plans[at..at + s];
    let row = [1, 8, 64].map(|k| {
        let library = || kbest::find(black_box(book), black_box(k), black_box(plan));
        ratio(library, || baseline::find(black_box(book), black_box(k), black_box(plan)))
    });
    println!("{name:29} {}", row.map(|r| format!("{r:7.2}")).join(" "));
}

fn find_table(books: &[(&str, Vec<i32>)], without_plan: &[(&str, Vec<i32>)]) {
    println!("\nfinding the last of 64 plans, library time / Rust time");
    println!("{:29} {:>7} {:>7} {:>7}", "", "find 1", "find 8", "find 64");
    for (name, book) in books {
        find_ratios(&format!("{name}, {} lines", book[2]), book);
    }
    for (name, book) in without_plan {
        find_ratios(&format!("no plan ({name}), {} lines", book[2]), book);
    }
}

/// The same for a limit with every choice marked. First m = H in the lists of 1, 8 and 64: a day that does not stop makes one choice more, so every listed plan
/// is looked at and none keeps the limit. Then m = 9 in the list of 64: the first plan keeps it.
fn limit_ratios(name: &str, book: &[i32]) {
    let (marks, h) = (vec![1; choices(book)], book[1] as usize);
    let row = [(1, h), (8, h), (64, h), (64, 9)].map(|(k, m)| {
        let (no, answer, rank) = limit_library(book, k, &marks, m);
        assert!(no == 28 || if m == 9 { rank == 1 } else { answer != 1 }, "the limit {m} in {name}");
        let library = || kbest::limit(black_box(book), black_box(k), black_box(&marks), black_box(m));
        ratio(library, || baseline::limit(black_box(book), black_box(k), black_box(&marks), black_box(m)))
    });
    println!("{name:29} {}", row.map(|r| format!("{r:8.2}")).join(" "));
}

fn limit_table(books: &[(&str, Vec<i32>)], without_plan: &[(&str, Vec<i32>)]) {
    println!("\nthe first plan with at most m marked choices, library time / Rust time");
    println!("{:29} {:>8} {:>8} {:>8} {:>8}", "", "none 1", "none 8", "none 64", "first 64");
    for (name, book) in books {
        limit_ratios(&format!("{name}, {} lines", book[2]), book);
    }
    for (name, book) in without_plan {
        limit_ratios(&format!("no plan ({name}), {} lines", book[2]), book);
    }
}

type Ranks = fn(&[i32], usize, &mut Room) -> usize;

/// Going through all plans against another way to the same list, for K = 1, 8 and 64.
fn small_ratios(name: &str, book: &[i32], other: Ranks) {
    let (mut a, mut b) = (Room::new(), Room::new());
    let row = [1, 8, 64].map(|k| ratio(|| small_library(book, k, &mut a), || other(book, k, &mut b)));
    println!("{name:29} {}", row.map(|r| format!("{r:7.2}")).join(" "));
}

/// Books of a few plans to as many as are gone through, then books that have more: there it is the time until they are refused.
fn small_table(title: &str, smalls: &[Small], more: &[(&str, Vec<i32>)], other: Ranks) {
    println!("\n{title}");
    println!("{:29} {:>7} {:>7} {:>7}", "", "K = 1", "K = 8", "K = 64");
    for Small { name, book, .. } in smalls {
        small_ratios(name, book, other);
    }
    for (name, book) in more {
        assert_eq!(baseline::plans(book), kbest::SMALL_MOST + 1, "{name} has more plans");
        small_ratios(&format!("refused ({name})"), book, other);
    }
}

/// The same for the calls that refuse a book without a plan. The record is one that says it lists a plan.
fn refusal_ratios(name: &str, book: &[i32]) {
    let (mut a, mut b) = (Room::new(), Room::new());
    let record = as_record(book, 64, 1);
    assert_eq!((number(kbest::least(book), 0).0, assert_equal_accept(&record)), (28, 28));
    let least = ratio(|| kbest::least(black_box(book)), || baseline::least(black_box(book)));
    let rank = ratio(|| rank_library(book, 64, &mut a), || rank_rust(book, 64, &mut b));
    let write = ratio(|| write_library(book, &mut a), || write_rust(book, &mut b));
    let accept = ratio(|| kbest::accept(black_box(&record)), || baseline::accept(black_box(&record)));
    println!("{name:28} {least:7.2} {rank:7.2} {write:8.2} {accept:8.2}");
}

/// The same for calls at a desk where rider 3 holds rank 5. Each leaves the desk as it is: a rank asked for again, one that another rider holds, a
/// rider who holds none, whose hold is cancelled and who commits; and a look-up.
fn desk_ratios(name: &str, record: &[u8]) {
    let (mut a, mut b) = (kbest::Desk::fresh(), baseline::Desk::fresh());
    let open = ratio(|| a.open(black_box(record)), || b.open(black_box(record)));
    assert!(a.ask(3, 5).is_ok() && b.ask(3, 5) == 0);
    let ask = ratio(|| a.ask(black_box(3), black_box(5)), || b.ask(black_box(3), black_box(5)));
    let refused = ratio(|| a.ask(black_box(4), black_box(5)), || b.ask(black_box(4), black_box(5)));
    let cancel = ratio(|| a.cancel(black_box(4)), || b.cancel(black_box(4)));
    let commit = ratio(|| a.commit(black_box(4)), || b.commit(black_box(4)));
    let held = ratio(|| a.held(black_box(3)), || b.held(black_box(3)));
    println!("{name:28} {open:7.2} {ask:7.2} {refused:8.2} {cancel:8.2} {commit:8.2} {held:8.2}");
}

fn convert_library(table: &[i32], book: &mut [i32]) -> usize {
    let length = kbest::convert(black_box(table), book).unwrap_or(0);
    black_box(book);
    length
}

fn convert_rust(table: &[i32], book: &mut [i32]) -> usize {
    let length = baseline::convert(black_box(table), book).1;
    black_box(book);
    length
}

/// The same for converting a table, named with the lines of its book.
fn table_ratio(name: &str, table: &[i32]) {
    let (mut a, mut b) = ([0; kbest::BOOK_MOST], [0; kbest::BOOK_MOST]);
    let convert = ratio(|| convert_library(table, &mut a), || convert_rust(table, &mut b));
    println!("{:28} {convert:7.2}", format!("{name}, {} lines", a[2]));
}

/// The same for a power.
fn power_ratio(d: usize, e: usize) -> f64 {
    ratio(|| kbest::power(black_box(d), black_box(e)), || baseline::power(black_box(d), black_box(e)))
}

/// How the time of ranking grows with K, against K = 1.
fn growth_with_k(name: &str, book: &[i32]) {
    let (mut a, mut b) = (Room::new(), Room::new());
    let counts = [1, 2, 4, 8, 16, 32, 64];
    let library: Vec<f64> = counts.iter().map(|&k| ratio(|| rank_library(book, k, &mut a), || rank_library(book, 1, &mut b))).collect();
    let rust: Vec<f64> = counts.iter().map(|&k| ratio(|| rank_rust(book, k, &mut a), || rank_rust(book, 1, &mut b))).collect();
    for (who, row) in [("library", library), ("Rust", rust)] {
        println!("{name:16} {who:8} {}", row.iter().map(|r| format!("{r:7.2}")).collect::<String>());
    }
}

fn growth_with_lines(books: &[(usize, Vec<i32>)]) {
    let (mut a, mut b) = (Room::new(), Room::new());
    let small = &books[0].1;
    let row = |name: &str, of: &mut dyn FnMut(&[i32]) -> f64| {
        println!("{name:25} {}", books.iter().map(|(_, book)| format!("{:7.2}", of(book))).collect::<String>());
    };
    row("check, library", &mut |book| ratio(|| check_library(book), || check_library(small)));
    row("check, Rust", &mut |book| ratio(|| check_rust(book), || check_rust(small)));
    for k in [1, 64] {
        row(&format!("rank, K = {k}, library"), &mut |book| ratio(|| rank_library(book, k, &mut a), || rank_library(small, k, &mut b)));
        row(&format!("rank, K = {k}, Rust"), &mut |book| ratio(|| rank_rust(book, k, &mut a), || rank_rust(small, k, &mut b)));
    }
}

/// Books of 64 posts with few to many lines: from 2 choices of 1 transition to 8 choices of 3.
fn books_by_lines(rng: &mut Random) -> Vec<(usize, Vec<i32>)> {
    let shapes: [(i32, i32); 4] = [(2, 1), (3, 2), (5, 3), (8, 3)];
    shapes
        .iter()
        .map(|&(choices, r)| {
            let shape = Shape { scale: 10, sizes: &LARGEST, choices, costs: (-500, 3000), transitions: &|_| r, stops: 0, closed: 0, depots: 1 };
            let book = random_book(rng, &shape);
            (book[2] as usize, book)
        })
        .collect()
}

/// One call many times, for a profile: which, book, K and repeats.
fn only(words: &[String], books: &[(&str, Vec<i32>)], smalls: &[Small]) {
    let mut named = books.iter().map(|(name, book)| (*name, book)).chain(smalls.iter().map(|small| (small.name.as_str(), &small.book)));
    let book = named.find(|(name, _)| name.starts_with(&words[1])).expect("a book of that name").1;
    let (k, repeats) = (words[2].parse().expect("K"), words[3].parse().expect("repeats"));
    let mut room = Room::new();
    let (plan, marks) = (first_plan(book), vec![1; choices(book)]);
    for _ in 0..repeats {
        let answer = match words[0].as_str() {
            "check" => check_library(book) as usize,
            "value" => kbest::value(black_box(book), black_box(&plan)).is_ok() as usize,
            "least" => kbest::least(black_box(book)).is_ok() as usize,
            "find" => kbest::find(black_box(book), black_box(k), black_box(&plan)).is_ok() as usize,
            "limit" => kbest::limit(black_box(book), black_box(k), black_box(&marks), book[1] as usize).is_ok() as usize,
            "rank" => rank_library(book, k, &mut room),
            "rust" => rank_rust(book, k, &mut room),
            "small" => small_library(book, k, &mut room),
            "small-rust" => small_rust(book, k, &mut room),
            _ => panic!("check, value, least, find, limit, rank, rust, small or small-rust"),
        };
        black_box(answer);
    }
}

fn main() {
    let mut rng = Random(88172645463325252);
    let books = [
        ("book A", BOOK_A.to_vec()),
        ("book C", BOOK_C.to_vec()),
        ("typical", typical(&mut rng, 0, 0, 1)),
        ("largest", largest(&mut rng, (-500, 3000), 0)),
        ("ties (largest)", largest(&mut rng, (0, 0), 0)),
        ("stops (typical)", typical(&mut Random(362436069), 30, 0, 1)), // its best plan reaches most posts
        ("closed (typical)", typical(&mut Random(123456789), 0, 40, 1)), // a dead end, and still more than 64 plans
        ("closed (largest)", largest(&mut Random(161803398), (-500, 3000), 70)), // dead ends at five posts, and still more than 64 plans
        ("depots (book A)", BOOK_A_DEPOTS.to_vec()),
        ("depots (typical)", typical(&mut Random(271828182), 0, 0, 8)),
        ("depots (largest)", largest_with_depots(&mut Random(314159265))),
    ];
    let refused = [("typical", closed_at_last(books[2].1.clone())), ("largest", closed_at_last(books[3].1.clone()))];
    let smalls = small_books();
    let words: Vec<String> = std::env::args().skip(1).collect();
    if !words.is_empty() {
        return only(&words, &books, &smalls);
    }
    let (by_lines, mut given) = (books_by_lines(&mut rng), Given::default());
    for book in books.iter().map(|(_, b)| b).chain(by_lines.iter().map(|(_, b)| b)) {
        assert_eq!(kbest::check(book), Ok(()), "a timed book is accepted");
        assert_equal(book, &mut given);
    }
    let record = record_of(&books[2].1);
    for (_, book) in &refused {
        assert_equal(book, &mut given);
    }
    let (small, calls) = (assert_small_books(&mut rng, 0, 1, &mut given), assert_equal_desks(&mut rng, &record));
    let closed = assert_small_books(&mut Random(521288629), 35, 1, &mut given);
    let depots = assert_small_books(&mut Random(141421356), 0, 8, &mut given) + assert_small_books(&mut Random(577215664), 35, 8, &mut given);
    assert_small_lists(&smalls, &mut given);
    let Given { finds, limits, smalls: lists } = given;
    assert!(finds.iter().all(|&n| n > 1000), "refusals and answers of finding: {finds:?}");
    assert!(limits.iter().all(|&n| n > 1000), "refusals and answers of limits: {limits:?}");
    assert!(lists.iter().all(|&n| n > 1000), "lists by going through, refusals with 30 and others: {lists:?}");
    let tables = [("small", TABLE.to_vec()), ("typical", typical_table(&mut rng)), ("largest", largest_table(&mut rng))];
    for (_, table) in &tables {
        assert_eq!(assert_equal_books(table, kbest::BOOK_MOST).0, 0, "a timed table is accepted");
    }
    let (random, powers) = (assert_random_tables(&mut rng), assert_equal_powers());
    println!("equal results on the timed books and tables, on {small} small books, {closed} with closed choices and {depots} with depots, in {calls} calls at");
    let (finds, limits, lists): (usize, usize, usize) = (finds.iter().sum(), limits.iter().sum(), lists.iter().sum());
    println!("a desk, on {random} random tables, for {powers} powers, in {finds} finds, for {limits} limits and in going through all plans {lists} times\n");

    println!("library time / Rust time");
    println!("{:28} {:>7} {:>7} {:>7} {:>8} {:>8} {:>8} {:>8} {:>8}", "", "check", "value", "least", "rank 1", "rank 8", "rank 64", "write 64", "accept");
    for (name, book) in &books {
        ratios(&format!("{name}, {} lines", book[2]), book);
    }

    println!("\nbooks without a plan, library time / Rust time");
    println!("{:28} {:>7} {:>7} {:>8} {:>8}", "", "least", "rank 64", "write 64", "accept");
    for (name, book) in &refused {
        refusal_ratios(&format!("{name}, {} lines", book[2]), book);
    }

    find_table(&books, &refused);
    limit_table(&books, &refused);

    let more = &books[2..4];
    small_table("small books, going through / main engine", &smalls, more, rank_library);
    small_table("small books, going through, library time / Rust time", &smalls, more, small_rust);

    println!("\nat a desk, library time / Rust time");
    println!("{:28} {:>7} {:>7} {:>8} {:>8} {:>8} {:>8}", "", "open", "ask", "refused", "cancel", "commit", "held");
    desk_ratios("typical, k = 64", &record);

    println!("\ntables, library time / Rust time");
    println!("{:28} {:>7}", "", "convert");
    for (name, table) in &tables {
        table_ratio(name, table);
    }

    println!("\npowers, library time / Rust time");
    println!("{:28} {:>7} {:>7} {:>7} {:>7}", "e", 0, 1, 4, 8);
    println!("{:28} {}", "D = 100", [0, 1, 4, 8].map(|e| format!("{:7.2}", power_ratio(100, e))).join(" "));

    println!("\nranking, time / time for K = 1");
    println!("{:25} {}", "K", [1, 2, 4, 8, 16, 32, 64].map(|k| format!("{k:7}")).concat());
    growth_with_k("typical", &books[2].1);
    growth_with_k("largest", &books[3].1);

    println!("\n64 posts, H = 8: time / time for the fewest lines");
    println!("{:25} {}", "lines", by_lines.iter().map(|(lines, _)| format!("{lines:7}")).collect::<String>());
    growth_with_lines(&by_lines);
}
