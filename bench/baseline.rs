//! The same calls by an independent implementation: the K-best method with document 01's order, and going through all plans, written for speed in safe code.
//! It shares nothing with the library that it is compared with.

use std::ops::Range;

const POSTS: usize = 64;
const CHOICES: usize = 8;
const PLANS: usize = 64;
const NOT_REACHED: u8 = 255;
/// The cost that marks a choice as closed.
const CLOSED: i32 = 200_000;
/// The most plans of a book that are gone through.
const SMALL: usize = 4096;

/// The columns of a book whose questions 1 to 7 are passed.
struct Book<'a> {
    d: usize,
    h: usize,
    s: usize,
    sizes: &'a [i32],
    counts: &'a [i32],
    left: &'a [i32],
    right: &'a [i32],
}

impl<'a> Book<'a> {
    fn read(words: &'a [i32]) -> Result<Book<'a>, u32> {
        let [d, h, l, rest @ ..] = words else { return Err(1) };
        if !(1..=100).contains(d) {
            return Err(2);
        }
        if !(1..=8).contains(h) {
            return Err(3);
        }
        if !(1..=2048).contains(l) {
            return Err(4);
        }
        let (h, l) = (*h as usize, *l as usize);
        if rest.len() < h + 1 {
            return Err(5);
        }
        let (sizes, rest) = rest.split_at(h + 1);
        if sizes[0] != 1 || sizes[1..].iter().any(|n| !(1..=16).contains(n)) {
            return Err(6);
        }
        let s = sizes.iter().sum::<i32>() as usize;
        if s > POSTS {
            return Err(6);
        }
        if rest.len() != s + 2 * l {
            return Err(7);
        }
        let (counts, columns) = rest.split_at(s);
        let (left, right) = columns.split_at(l);
        Ok(Book { d: *d as usize, h, s, sizes, counts, left, right })
    }

    /// Questions 8 to 13.
    fn check(&self) -> u32 {
        if self.counts.iter().any(|n| !(1..=8).contains(n)) {
            return 8;
        }
        let (mut lowest, mut largest, mut line, mut post) = (u32::MAX, 0, 0, 0);
        for (stage, &size) in self.sizes.iter().enumerate() {
            let next_size = self.sizes.get(stage + 1).copied().unwrap_or(0);
            for _ in 0..size {
                for _ in 0..self.counts[post] {
                    let Some(&r) = self.left.get(line) else { return 9 };
                    let most = if stage == self.h { 0 } else { 6 };
                    if !(0..=most).contains(&r) {
                        return 9;
                    }
                    let end = line + 1 + r as usize;
                    if end > self.left.len() {
                        return 9;
                    }
                    let cost = self.right[line];
                    if amount_allowed(&cost) {
                        largest = largest.max(cost.unsigned_abs());
                    } else if cost != CLOSED {
                        lowest = 10;
                    }
                    let no = self.lines_number(line + 1, end, next_size);
                    if no != 0 && no < lowest {
                        lowest = no;
                    }
                    line = end;
                }
                post += 1;
            }
        }
        if line != self.left.len() {
            return 9;
        }
        if lowest != u32::MAX {
            return lowest;
        }
        let bound = (self.d as u128).pow(self.h as u32) * (self.h as u128 + 1) * largest as u128;
        if bound > 4_000_000_000_000_000_000 {
            return 13;
        }
        0
    }

    /// 11 and 12 of one choice.
    fn lines_number(&self, from: usize, to: usize, next_size: i32) -> u32 {
        let (mut before, mut sum, mut weights_allowed) = (-1, 0, true);
        for (&next, &weight) in self.left[from..to].iter().zip(&self.right[from..to]) {
            if next <= before || next >= next_size {
                return 11;
            }
            before = next;
            weights_allowed &= weight >= 1 && weight <= self.d as i32;
            sum += weight as i64;
        }
        if weights_allowed && sum <= self.d as i64 {
            0
        } else {
            12
        }
    }
}

fn checked(words: &[i32]) -> Result<Book<'_>, u32> {
    let book = Book::read(words)?;
    match book.check() {
        0 => Ok(book),
        no => Err(no),
    }
}

pub fn check(words: &[i32]) -> u32 {
    checked(words).err().unwrap_or(0)
}

/// A call of its own, as the library's is.
#[inline(never)]
pub fn power(d: usize, e: usize) -> u64 {
    if (1..=100).contains(&d) && e <= 8 {
        (d as u64).pow(e as u32)
    } else {
        0
    }
}

/// What is worked out once for a book.
struct Solved {
    /// the cost of each choice with best choices ever after
    costs: [[i64; CHOICES]; POSTS],
    /// the next posts of each choice as bits
    nexts: [[u64; CHOICES]; POSTS],
    /// the first line of each choice
    lines: [[u16; CHOICES]; POSTS],
    /// the first post of the next stage
    base: [u8; POSTS],
    best: [u8; POSTS],
    /// the best choice but one, where there is one
    second: [u8; POSTS],
    least: [i64; POSTS],
    /// the choices that no plan takes, as bits: they are closed or lead to a dead end
    shut: [u8; POSTS],
    /// the dead ends, as bits: the posts with every choice shut
    dead: u64,
}

fn first_best(costs: &[i64], barred: u8) -> u8 {
    let (mut at, mut low) = (NOT_REACHED, 0);
    for (c, &cost) in costs.iter().enumerate() {
        if barred >> c & 1 == 0 && (at == NOT_REACHED || cost < low) {
            (at, low) = (c as u8, cost);
        }
    }
    at
}

impl Solved {
    fn new(book: &Book) -> Solved {
        let mut t = Solved {
            costs: [[0; CHOICES]; POSTS],
            nexts: [[0; CHOICES]; POSTS],
            lines: [[0; CHOICES]; POSTS],
            base: [0; POSTS],
            best: [0; POSTS],
            second: [0; POSTS],
            least: [0; POSTS],
            shut: [0; POSTS],
            dead: 0,
        };
        let (mut line, mut post, mut end) = (0, 0, 0);
        for &size in book.sizes {
            end += size as usize;
            while post < end {
                t.base[post] = end as u8;
                for c in 0..book.counts[post] as usize {
                    t.lines[post][c] = line as u16;
                    line += 1 + book.left[line] as usize;
                }
                post += 1;
            }
        }
        let mut scale = 1;
        for &size in book.sizes.iter().rev() {
            for _ in 0..size {
                post -= 1;
                t.solve_post(book, post, scale);
            }
            scale *= book.d as i64;
        }
        t
    }

    fn solve_post(&mut self, book: &Book, post: usize, scale: i64) {
        let count = book.counts[post] as usize;
        let base = self.base[post] as usize;
        let mut shut = 0;
        for c in 0..count {
            let line = self.lines[post][c] as usize;
            if book.right[line] == CLOSED {
                shut |= 1 << c; // its cost times the scale may not fit
                continue;
            }
            let (from, to) = (line + 1, line + 1 + book.left[line] as usize);
            let (mut cost, mut nexts) = (scale * book.right[line] as i64, 0);
            for (&next, &weight) in book.left[from..to].iter().zip(&book.right[from..to]) {
                let q = base + next as usize;
                cost += weight as i64 * self.least[q];
                nexts |= 1 << q;
            }
            self.costs[post][c] = cost;
            self.nexts[post][c] = nexts;
            shut |= ((nexts & self.dead != 0) as u8) << c;
        }
        self.shut[post] = shut;
        let costs = &self.costs[post][..count];
        let best = first_best(costs, shut);
        self.best[post] = best;
        if best == NOT_REACHED {
            self.dead |= 1 << post;
            return;
        }
        self.second[post] = first_best(costs, shut | 1 << best);
        self.least[post] = costs[best as usize];
    }

    fn has_plan(&self) -> bool {
        self.dead & 1 == 0
    }

    /// The plan that keeps to `plan` before `post`, takes choice c there and best choices after it.
    fn build(&self, s: usize, plan: &[u8], post: usize, c: u8, out: &mut [u8; POSTS]) {
        let mut reached = 1u64;
        for p in 0..s {
            out[p] = if reached >> p & 1 == 0 {
                NOT_REACHED
            } else {
                let a = if p < post { plan[p] } else if p == post { c } else { self.best[p] };
                reached |= self.nexts[p][a as usize];
                a
            };
        }
    }

    /// The weight with which the plan reaches each post.
    fn reach(&self, book: &Book, plan: &[u8]) -> [i64; POSTS] {
        let mut weights = [0; POSTS];
        weights[0] = 1;
        for (p, &c) in plan.iter().enumerate() {
            if c == NOT_REACHED {
                continue;
            }
            let line = self.lines[p][c as usize] as usize;
            let (from, to) = (line + 1, line + 1 + book.left[line] as usize);
            let (here, base) = (weights[p], self.base[p] as usize);
            for (&next, &weight) in book.left[from..to].iter().zip(&book.right[from..to]) {
                weights[base + next as usize] += here * weight as i64;
            }
        }
        weights
    }
}

impl Book<'_> {
    /// The plan's cost, if it is a plan of the book.
    fn value(&self, plan: &[u8]) -> Option<i64> {
        if plan.len() != self.s {
            return None;
        }
        let (mut lines, mut reached) = ([0; POSTS], 1u64);
        let (mut line, mut post, mut end) = (0, 0, 0);
        for &size in self.sizes {
            end += size as usize;
            while post < end {
                let here = reached >> post & 1 == 1;
                if if here { plan[post] as i32 >= self.counts[post] } else { plan[post] != NOT_REACHED } {
                    return None;
                }
                for c in 0..self.counts[post] {
                    let next = line + 1 + self.left[line] as usize;
                    if c == plan[post] as i32 {
                        if self.right[line] == CLOSED {
                            return None;
                        }
                        lines[post] = line;
                        reached = self.left[line + 1..next].iter().fold(reached, |bits, &q| bits | 1 << (end + q as usize));
                    }
                    line = next;
                }
                post += 1;
            }
        }
        let (mut costs, mut scale) = ([0; POSTS], 1);
        for &size in self.sizes.iter().rev() {
            for _ in 0..size {
                post -= 1;
                if plan[post] != NOT_REACHED {
                    let (from, to) = (lines[post] + 1, lines[post] + 1 + self.left[lines[post]] as usize);
                    let nexts = self.left[from..to].iter().zip(&self.right[from..to]);
                    costs[post] = nexts.fold(scale * self.right[from - 1] as i64, |sum, (&q, &w)| sum + w as i64 * costs[end + q as usize]);
                }
            }
            end = post;
            scale *= self.d as i64;
        }
        Some(costs[0])
    }
}

pub fn value(words: &[i32], plan: &[u8]) -> (u32, i64) {
    match checked(words) {
        Ok(book) => book.value(plan).map_or((17, 0), |cost| (0, cost)),
        Err(no) => (no, 0),
    }
}

pub fn least(words: &[i32]) -> (u32, i64) {
    let book = match checked(words) {
        Ok(book) => book,
        Err(no) => return (no, 0),
    };
    let t = Solved::new(&book);
    if t.has_plan() {
        (0, t.least[0])
    } else {
        (28, 0)
    }
}

/// The candidates that wait, at most K, reached through `order`.
struct Pool {
    costs: [i64; PLANS],
    plans: [[u8; POSTS]; PLANS],
    splits: [u8; PLANS],
    barred: [u8; PLANS],
    order: [u8; PLANS],
    count: usize,
}

impl Pool {
    fn new() -> Pool {
        Pool {
            costs: [0; PLANS],
            plans: [[0; POSTS]; PLANS],
            splits: [0; PLANS],
            barred: [0; PLANS],
            order: std::array::from_fn(|i| i as u8),
            count: 0,
        }
    }

    /// Would a candidate of this cost surely be let go?
    fn beyond(&self, k: usize, cost: i64) -> bool {
        self.count == k && cost > self.costs[self.order[k - 1] as usize]
    }

    fn insert(&mut self, k: usize, s: usize, cost: i64, plan: &[u8; POSTS], split: usize, barred: u8) {
        let at = self.order[..self.count].partition_point(|&o| {
            let o = o as usize;
            self.costs[o] < cost || (self.costs[o] == cost && self.plans[o][..s] <= plan[..s])
        });
        if at == k {
            return;
        }
        let spare = self.count.min(k - 1);
        let slot = self.order[spare];
        self.order.copy_within(at..spare, at + 1);
        self.order[at] = slot;
        self.count = spare + 1;
        let slot = slot as usize;
        self.costs[slot] = cost;
        self.plans[slot] = *plan;
        self.splits[slot] = split as u8;
        self.barred[slot] = barred;
    }

    /// The slot of the first candidate, which no longer waits.
    fn pop(&mut self) -> usize {
        let slot = self.order[0];
        self.count -= 1;
        self.order.copy_within(1..self.count + 1, 0);
        self.order[self.count] = slot;
        slot as usize
    }
}

/// The list of a book that has a plan, to slices that hold it.
fn list(book: &Book, t: &Solved, k: usize, costs: &mut [i64], plans: &mut [u8]) -> usize {
    let s = book.s;
    let mut pool = Pool::new();
    let mut row = [0; POSTS];
    t.build(s, &[], 0, t.best[0], &mut row);
    pool.insert(k, s, t.least[0], &row, 0, 0);
    for j in 0..k {
        if pool.count == 0 {
            return j;
        }
        let slot = pool.pop();
        let (cost, split, barred) = (pool.costs[slot], pool.splits[slot] as usize, pool.barred[slot]);
        let plan = &mut plans[j * s..(j + 1) * s];
        costs[j] = cost;
        plan.copy_from_slice(&pool.plans[slot][..s]);
        let weights = t.reach(book, plan);
        for p in split..s {
            let f = plan[p];
            if f == NOT_REACHED {
                continue;
            }
            let mask = if p == split { barred | 1 << f } else { 1 << f };
            let c = if p == split { first_best(&t.costs[p][..book.counts[p] as usize], mask | t.shut[p]) } else { t.second[p] };
            if c == NOT_REACHED {
                continue;
            }
            let child = cost + weights[p] * (t.costs[p][c as usize] - t.costs[p][f as usize]);
            if pool.beyond(k, child) {
                continue;
            }
            t.build(s, plan, p, c, &mut row);
            pool.insert(k, s, child, &row, p, mask);
        }
    }
    k
}

fn asked(words: &[i32], k: usize) -> Result<Book<'_>, u32> {
    let book = checked(words)?;
    if (1..=PLANS).contains(&k) {
        Ok(book)
    } else {
        Err(14)
    }
}

pub fn rank(words: &[i32], k: usize, costs: &mut [i64], plans: &mut [u8]) -> (u32, usize) {
    let book = match asked(words, k) {
        Ok(book) => book,
        Err(no) => return (no, 0),
    };
    let t = Solved::new(&book);
    if !t.has_plan() {
        return (28, 0);
    }
    if costs.len() < k {
        return (15, 0);
    }
    if plans.len() < k * book.s {
        return (16, 0);
    }
    (0, list(&book, &t, k, costs, plans))
}

/// Where each choice leads, for going through all plans.
struct Moves {
    s: usize,
    /// the next posts of each choice as bits
    nexts: [[u64; CHOICES]; POSTS],
    /// the first line of each choice
    lines: [[u16; CHOICES]; POSTS],
    /// the first post of the next stage
    base: [u8; POSTS],
    /// D for each stage still to come
    scales: [i64; POSTS],
    /// the choices that a plan can take, as bits: they are open and lead to no dead end
    free: [u8; POSTS],
}

/// A plan, and for each post the posts that the bytes before it reach, as bits.
struct Current {
    plan: [u8; POSTS],
    reached: [u64; POSTS],
}

impl Moves {
    fn new(book: &Book) -> Moves {
        let mut t = Moves {
            s: book.s,
            nexts: [[0; CHOICES]; POSTS],
            lines: [[0; CHOICES]; POSTS],
            base: [0; POSTS],
            scales: [1; POSTS],
            free: [0; POSTS],
        };
        let (mut line, mut post, mut end) = (0, 0, 0);
        for (stage, &size) in book.sizes.iter().enumerate() {
            end += size as usize;
            let scale = (book.d as i64).pow((book.h - stage) as u32);
            while post < end {
                (t.base[post], t.scales[post]) = (end as u8, scale);
                line = t.read_post(book, post, line);
                post += 1;
            }
        }
        let mut dead = 0u64;
        for p in (0..book.s).rev() {
            for (c, nexts) in t.nexts[p].iter().enumerate() {
                t.free[p] &= !(((nexts & dead != 0) as u8) << c);
            }
            dead |= ((t.free[p] == 0) as u64) << p;
        }
        t
    }

    /// The choices of a post that are open, where each leads, and the line after them.
    fn read_post(&mut self, book: &Book, post: usize, mut line: usize) -> usize {
        let base = self.base[post];
        for c in 0..book.counts[post] as usize {
            let end = line + 1 + book.left[line] as usize;
            self.lines[post][c] = line as u16;
            self.nexts[post][c] = book.left[line + 1..end].iter().fold(0, |bits, &q| bits | 1 << (base as i32 + q));
            self.free[post] |= ((book.right[line] != CLOSED) as u8) << c;
            line = end;
        }
        line
    }

    fn has_plan(&self) -> bool {
        self.free[0] != 0
    }

    /// The lowest choices from a post on, where the bytes before it reach these posts.
    fn fill(&self, now: &mut Current, from: usize, mut reached: u64) {
        for p in from..self.s {
            now.reached[p] = reached;
            now.plan[p] = if reached >> p & 1 == 0 {
                NOT_REACHED
            } else {
                let c = self.free[p].trailing_zeros();
                reached |= self.nexts[p][c as usize];
                c as u8
            };
        }
    }

    fn first(&self) -> Current {
        let mut now = Current { plan: [0; POSTS], reached: [0; POSTS] };
        self.fill(&mut now, 0, 1);
        now
    }

    /// The next plan in the order of bytes; false where there is none.
    fn advance(&self, now: &mut Current) -> bool {
        for p in (0..self.s).rev() {
            let c = now.plan[p];
            let above = if c == NOT_REACHED { 0 } else { self.free[p] as u32 >> (c + 1) << (c + 1) };
            if above != 0 {
                let c = above.trailing_zeros();
                now.plan[p] = c as u8;
                let reached = now.reached[p] | self.nexts[p][c as usize];
                self.fill(now, p + 1, reached);
                return true;
            }
        }
        false
    }

    /// How many plans there are, counted to one more than the limit.
    fn count(&self) -> usize {
        let (mut now, mut n) = (self.first(), 1);
        while n <= SMALL && self.advance(&mut now) {
            n += 1;
        }
        n
    }

    fn cost(&self, book: &Book, plan: &[u8]) -> i64 {
        let mut costs = [0; POSTS];
        for (p, &c) in plan.iter().enumerate().rev() {
            if c == NOT_REACHED {
                continue;
            }
            let (line, base) = (self.lines[p][c as usize] as usize, self.base[p] as usize);
            let (from, to) = (line + 1, line + 1 + book.left[line] as usize);
            let nexts = book.left[from..to].iter().zip(&book.right[from..to]);
            costs[p] = nexts.fold(self.scales[p] * book.right[line] as i64, |sum, (&q, &w)| sum + w as i64 * costs[base + q as usize]);
        }
        costs[0]
    }

    /// The first k of all plans. They come in the order of bytes, so one that costs as much as others goes after them.
    fn list(&self, book: &Book, k: usize, costs: &mut [i64], plans: &mut [u8]) -> usize {
        let (s, mut now, mut n) = (self.s, self.first(), 0);
        loop {
            let plan = &now.plan[..s];
            let cost = self.cost(book, plan);
            let at = costs[..n].partition_point(|&c| c <= cost);
            if at < k {
                let last = n.min(k - 1);
                costs.copy_within(at..last, at + 1);
                plans.copy_within(at * s..last * s, (at + 1) * s);
                costs[at] = cost;
                plans[at * s..(at + 1) * s].copy_from_slice(plan);
                n = last + 1;
            }
            if !self.advance(&mut now) {
                return n;
            }
        }
    }
}

/// The list of `rank` by going through all plans.
pub fn rank_small(words: &[i32], k: usize, costs: &mut [i64], plans: &mut [u8]) -> (u32, usize) {
    ranked_small(words, k, costs, plans).map_or_else(|no| (no, 0), |n| (0, n))
}

fn ranked_small(words: &[i32], k: usize, costs: &mut [i64], plans: &mut [u8]) -> Result<usize, u32> {
    let book = asked(words, k)?;
    let t = Moves::new(&book);
    if !t.has_plan() {
        return Err(28);
    }
    if t.count() > SMALL {
        return Err(30);
    }
    if costs.len() < k {
        return Err(15);
    }
    if plans.len() < k * book.s {
        return Err(16);
    }
    Ok(t.list(&book, k, costs, plans))
}

/// How many plans a checked book has, counted to one more than the limit.
pub fn plans(words: &[i32]) -> usize {
    checked(words).map_or(0, |book| {
        let t = Moves::new(&book);
        if t.has_plan() { t.count() } else { 0 }
    })
}

/// The number; then 1, the plan is listed, 2, it costs more than the last listed, or 3, it costs the same; and its rank, the amount, or the first post where it
/// differs from the last listed.
pub fn find(words: &[i32], k: usize, plan: &[u8]) -> (u32, u32, i64) {
    found(words, k, plan).map_or_else(|no| (no, 0, 0), |(answer, value)| (0, answer, value))
}

fn found(words: &[i32], k: usize, plan: &[u8]) -> Result<(u32, i64), u32> {
    let book = asked(words, k)?;
    let t = Solved::new(&book);
    if !t.has_plan() {
        return Err(28);
    }
    let cost = book.value(plan).ok_or(17u32)?;
    let (mut costs, mut plans) = ([0; PLANS], [0; PLANS * POSTS]);
    let n = list(&book, &t, k, &mut costs, &mut plans);
    let listed = plans[..n * book.s].chunks_exact(book.s);
    if let Some(j) = costs[..n].iter().zip(listed.clone()).position(|(&c, p)| c == cost && p == plan) {
        return Ok((1, j as i64 + 1));
    }
    let (last_cost, last) = (costs[n - 1], &plans[(n - 1) * book.s..]);
    if cost > last_cost {
        return Ok((2, cost - last_cost));
    }
    Ok((3, last.iter().zip(plan).take_while(|(a, b)| a == b).count() as i64))
}

/// The number; then 1, the plan of this rank is the first that keeps the limit, 2, none in the list does, or 3, none in the book.
pub fn limit(words: &[i32], k: usize, marks: &[u8], m: usize) -> (u32, u32, usize) {
    limited(words, k, marks, m).map_or_else(|no| (no, 0, 0), |(answer, rank)| (0, answer, rank))
}

fn limited(words: &[i32], k: usize, marks: &[u8], m: usize) -> Result<(u32, usize), u32> {
    let book = asked(words, k)?;
    let t = Solved::new(&book);
    if !t.has_plan() {
        return Err(28);
    }
    let (mut firsts, mut choices) = ([0; POSTS], 0);
    for (first, &count) in firsts.iter_mut().zip(book.counts) {
        *first = choices;
        choices += count as usize;
    }
    if marks.len() != choices || marks.iter().any(|&mark| mark > 1) || m > 9 {
        return Err(29);
    }
    let (mut costs, mut plans) = ([0; PLANS], [0; PLANS * POSTS]);
    let n = list(&book, &t, k, &mut costs, &mut plans);
    let mut listed = plans[..n * book.s].chunks_exact(book.s);
    match listed.position(|plan| most_marked(&book, &t, &firsts, marks, plan) as usize <= m) {
        Some(j) => Ok((1, j + 1)),
        None => Ok((if n == k { 2 } else { 3 }, 0)),
    }
}

/// The most marked choices that a day of a plan makes. A day that stops makes no more than those that go on.
fn most_marked(book: &Book, t: &Solved, firsts: &[usize; POSTS], marks: &[u8], plan: &[u8]) -> u8 {
    let mut most = [0; POSTS];
    for (p, &c) in plan.iter().enumerate().rev() {
        if c == NOT_REACHED {
            continue;
        }
        let (line, base) = (t.lines[p][c as usize] as usize, t.base[p] as usize);
        let nexts = &book.left[line + 1..line + 1 + book.left[line] as usize];
        most[p] = nexts.iter().fold(0, |high, &q| most[base + q as usize].max(high)) + marks[firsts[p] + c as usize];
    }
    most[0]
}

pub fn write(words: &[i32], k: usize, record: &mut [u8]) -> (u32, usize) {
    let book = match asked(words, k) {
        Ok(book) => book,
        Err(no) => return (no, 0),
    };
    let t = Solved::new(&book);
    if !t.has_plan() {
        return (28, 0);
    }
    let (mut costs, mut plans) = ([0; PLANS], [0; PLANS * POSTS]);
    let n = list(&book, &t, k, &mut costs, &mut plans);
    let body = 4 * words.len();
    let length = 12 + body + 8 * n + n * book.s;
    if record.len() < length {
        return (18, 0);
    }
    for (out, figure) in record[..12].chunks_exact_mut(4).zip([words.len(), k, n]) {
        out.copy_from_slice(&(figure as u32).to_le_bytes());
    }
    for (out, word) in record[12..12 + body].chunks_exact_mut(4).zip(words) {
        out.copy_from_slice(&word.to_le_bytes());
    }
    let at = 12 + body;
    for (out, cost) in record[at..at + 8 * n].chunks_exact_mut(8).zip(&costs) {
        out.copy_from_slice(&cost.to_le_bytes());
    }
    record[at + 8 * n..length].copy_from_slice(&plans[..n * book.s]);
    (0, length)
}

pub fn accept(record: &[u8]) -> (u32, usize, usize) {
    accepted(record).map_or_else(|no| (no, 0, 0), |(posts, k)| (0, posts, k))
}

fn accepted(record: &[u8]) -> Result<(usize, usize), u32> {
    const WORDS: usize = 4172;
    let figure = |at: usize| u32::from_le_bytes([record[at], record[at + 1], record[at + 2], record[at + 3]]) as usize;
    if record.len() < 12 || figure(0) > WORDS || record.len() < 12 + 4 * figure(0) {
        return Err(19);
    }
    let (w, most, k) = (figure(0), figure(4), figure(8));
    let mut room = [0; WORDS];
    for (word, bytes) in room.iter_mut().zip(record[12..12 + 4 * w].chunks_exact(4)) {
        *word = i32::from_le_bytes([bytes[0], bytes[1], bytes[2], bytes[3]]);
    }
    let book = asked(&room[..w], most)?;
    let t = Solved::new(&book);
    if !t.has_plan() {
        return Err(28);
    }
    let tail = &record[12 + 4 * w..];
    if k < 1 || k > most || tail.len() != 8 * k + k * book.s {
        return Err(20);
    }
    let (mut costs, mut plans) = ([0; PLANS], [0; PLANS * POSTS]);
    let n = list(&book, &t, most, &mut costs, &mut plans);
    let same = n == k
        && tail[..8 * k].chunks_exact(8).zip(&costs).all(|(bytes, cost)| bytes == cost.to_le_bytes())
        && tail[8 * k..] == plans[..k * book.s];
    if same {
        Ok((book.s, k))
    } else {
        Err(21)
    }
}

/// A planners' table whose question 25 is passed.
struct Table<'a> {
    d: i32,
    h: usize,
    first: usize,
    counts: &'a [i32],
    left: &'a [i32],
    right: &'a [i32],
}

fn amount_allowed(amount: &i32) -> bool {
    (-100_000..=100_000).contains(amount)
}

impl<'a> Table<'a> {
    fn read(words: &'a [i32]) -> Option<Table<'a>> {
        let [d, h, n, first, l, rest @ ..] = words else { return None };
        if !((1..=16).contains(n) && (0..*n).contains(first) && (1..=100).contains(d) && (1..=8).contains(h) && (1..=2048).contains(l)) {
            return None;
        }
        let (n, l) = (*n as usize, *l as usize);
        if rest.len() != n + 2 * l {
            return None;
        }
        let (counts, columns) = rest.split_at(n);
        let (left, right) = columns.split_at(l);
        Some(Table { d: *d, h: *h as usize, first: *first as usize, counts, left, right })
    }

    /// The lines of the first state and the first closing line, if question 26 is passed.
    fn walk(&self) -> Option<(Range<usize>, usize)> {
        let (mut line, mut first) = (0, 0..0);
        for (state, &count) in self.counts.iter().enumerate() {
            if !(1..=8).contains(&count) {
                return None;
            }
            let from = line;
            for _ in 0..count {
                line = self.after(line)?;
            }
            if state == self.first {
                first = from..line;
            }
        }
        let (bare, rewards) = (&self.left[line..], &self.right[line..]);
        (bare.len() == self.counts.len() && bare.iter().all(|&r| r == 0) && rewards.iter().all(amount_allowed)).then_some((first, line))
    }

    /// The line after the choice that begins at a line, if 26 allows it.
    fn after(&self, line: usize) -> Option<usize> {
        let r = *self.left.get(line)?;
        if r < 1 {
            return None;
        }
        let end = line + 1 + r as usize;
        let sum: i64 = self.right.get(line + 1..end)?.iter().map(|&weight| weight as i64).sum();
        (sum == self.d as i64 && amount_allowed(&self.right[line])).then_some(end)
    }

    /// The right column with each reward negated. A closing line takes one line as its 0 says.
    fn costs(&self) -> Vec<i32> {
        let (mut costs, mut line) = (self.right.to_vec(), 0);
        while line < costs.len() {
            costs[line] = -costs[line];
            line += 1 + self.left[line] as usize;
        }
        costs
    }

    /// The book's words, by its lines and its length.
    fn book(&self, first: Range<usize>, closings: usize, lines: usize, length: usize) -> Vec<i32> {
        let mut words = Vec::with_capacity(length);
        words.extend([self.d, self.h as i32, lines as i32, 1]);
        words.resize(4 + self.h, self.counts.len() as i32);
        words.push(self.counts[self.first]);
        for _ in 1..self.h {
            words.extend_from_slice(self.counts);
        }
        words.resize(words.len() + self.counts.len(), 1);
        for column in [self.left, &self.costs()] {
            words.extend_from_slice(&column[first.clone()]);
            for _ in 1..self.h {
                words.extend_from_slice(&column[..closings]);
            }
            words.extend_from_slice(&column[closings..]);
        }
        words
    }
}

fn convert_to(words: &[i32], out: &mut [i32]) -> Result<usize, u32> {
    let table = Table::read(words).ok_or(25u32)?;
    let (first, closings) = table.walk().ok_or(26u32)?;
    let (h, n) = (table.h, table.counts.len());
    let lines = first.len() + (h - 1) * closings + n;
    let length = 5 + h + n * h + 2 * lines;
    let front = out.get_mut(..length).ok_or(27u32)?;
    let book = table.book(first, closings, lines, length);
    checked(&book)?;
    front.copy_from_slice(&book);
    Ok(length)
}

pub fn convert(table: &[i32], book: &mut [i32]) -> (u32, usize) {
    convert_to(table, book).map_or_else(|no| (no, 0), |length| (0, length))
}

const RIDERS: usize = 16;

/// Which rank of a record is whose: by rider the rank held and the rank committed, 0 for none.
#[derive(Clone, Copy)]
pub struct Desk {
    pub k: u8,
    pub held: [u8; RIDERS],
    pub committed: [u8; RIDERS],
}

/// The calls are not built into their callers, as those of the library are not.
impl Desk {
    pub fn fresh() -> Desk {
        Desk { k: 0, held: [0; RIDERS], committed: [0; RIDERS] }
    }

    #[inline(never)]
    pub fn open(&mut self, record: &[u8]) -> u32 {
        let (no, _, k) = accept(record);
        if no == 0 {
            *self = Desk { k: k as u8, ..Desk::fresh() };
        }
        no
    }

    #[inline(never)]
    pub fn ask(&mut self, rider: usize, rank: usize) -> u32 {
        if rider >= RIDERS {
            return 22;
        }
        if rank == 0 || rank > self.k.into() {
            return 23;
        }
        let rank = rank as u8;
        let has = |i: usize| self.held[i] == rank || self.committed[i] == rank;
        if self.committed[rider] != 0 || (0..RIDERS).any(|i| i != rider && has(i)) {
            return 24;
        }
        self.held[rider] = rank;
        0
    }

    #[inline(never)]
    pub fn commit(&mut self, rider: usize) -> u32 {
        if rider >= RIDERS {
            return 22;
        }
        if self.held[rider] == 0 {
            return 24;
        }
        self.committed[rider] = std::mem::take(&mut self.held[rider]);
        0
    }

    #[inline(never)]
    pub fn cancel(&mut self, rider: usize) -> u32 {
        if rider >= RIDERS {
            return 22;
        }
        self.held[rider] = 0;
        0
    }

    #[inline(never)]
    pub fn held(&self, rider: usize) -> usize {
        self.held.get(rider).map_or(0, |&rank| rank.into())
    }
}
