//! The K best plans of a tour book: a safe wrapper of the static library `libkbest_c.a`.
//!
//! A book is a slice of 32-bit words, as is a planners' table; a plan has one byte for each post. Costs are exact and stand over D^H. Where the weights of a
//! choice before the last stage add to less than D, the tour may stop after it: what is missing is the chance, over D. At the last stage the choices of a post
//! are the depots where the tour may end, and a plan's byte there is the depot chosen. A choice whose cost is `CLOSED` is in no plan, and neither is a post
//! with every choice closed, so a book may have no plan. Each call takes any slice of any length and any count; what cannot be answered is refused with the
//! first question that is answered no. Nothing is allocated here.

use std::fmt;
use std::num::NonZeroU32;

/// The version of this wrapper as text.
pub const VERSION_TEXT: &str = "1.8.0";
/// The same as a number: the first × 10,000 + the second × 100 + the third.
pub const VERSION: u32 = 10800;

/// The longest book in words.
pub const BOOK_MOST: usize = 4172;
/// The most posts of a book, so the longest plan in bytes.
pub const POSTS_MOST: usize = 64;
/// The most plans of a list.
pub const PLANS_MOST: usize = 64;
/// The longest record in bytes.
pub const RECORD_MOST: usize = 21308;
/// The most plans of a book that `rank_small` lists.
pub const SMALL_MOST: usize = 4096;
/// The longest planners' table in words.
pub const TABLE_MOST: usize = 4117;
/// The longest book in words that a table can give: one of more than `BOOK_MOST` is always refused.
pub const TABLE_BOOK_MOST: usize = 32775;
/// How many riders a desk has: they are 0 to 15.
pub const RIDERS: usize = 16;
/// The byte of a post that a plan does not reach.
pub const NOT_REACHED: u8 = 255;
/// The cost of a closed choice.
pub const CLOSED: i32 = 200_000;

/// The questions 1 to 30. Each call asks some of them in the order that it states, and each is put to the whole input before the next.
pub const QUESTIONS: [&str; 30] = [
    "are there three words?",
    "is D from 1 to 100?",
    "is H from 1 to 8?",
    "is L from 1 to 2,048?",
    "are there H + 1 post counts?",
    "is there one post at stage 0, are there 1 to 16 at every other, and at most 64 in all?",
    "is the length exactly 4 + H + S + 2L words?",
    "has each post 1 to 8 choices?",
    "is every r from 0 to 6, and 0 at stage H, do all lines fit, and are exactly L used?",
    "is every cost from -100,000 to 100,000, or 200,000 where the choice is closed?",
    "do the next posts of each choice rise strictly and lie within the next stage?",
    "is every weight from 1 to D, and does each choice's sum to at most D?",
    "is D^H x (H + 1) x (largest cost of an open choice without its sign) at most 4 x 10^18?",
    "is K from 1 to 64?",
    "has the lent array of costs K places?",
    "has the lent array of plans K x S bytes?",
    "is it a plan of this book?",
    "does the lent array hold the record?",
    "are there 12 bytes, is W at most 4,172, and do 4 x W bytes follow?",
    "is k from 1 to K, and the record's length exact?",
    "are costs, plans and k those that ranking gives?",
    "is the rider from 0 to 15?",
    "does the record list the rank?",
    "on asking, is the rank with no other rider and the asker not yet committed; on committing, is a rank held?",
    "are there five sizes, is n from 1 to 16, the first state from 0 to n - 1, D from 1 to 100, H from 1 to 8 and L from 1 to 2,048, \
     and is the length exactly 5 + n + 2L words?",
    "has each state 1 to 8 choices, is every r at least 1, do all lines fit, are exactly L used, do the weights of each choice add to D, \
     has each closing line its 0, and is every reward from -100,000 to 100,000?",
    "does the lent array hold the book?",
    "has the book a plan?",
    "is there one mark, 0 or 1, for each choice of the book, and is m from 0 to 9?",
    "has the book at most 4,096 plans?",
];

mod c {
    use super::Desk;

    /// Two of the three answers of `kbest_find`; what is left is the third.
    pub const LISTED: u32 = 1;
    pub const COSTS_MORE: u32 = 2;

    /// Two of the three answers of `kbest_limit`.
    pub const KEPT: u32 = 1;
    pub const NONE_IN_LIST: u32 = 2;

    /// Both calls that rank: book, K, costs, plans, and how many are listed.
    pub type Rank = unsafe extern "C" fn(*const i32, usize, usize, *mut i64, usize, *mut u8, usize, *mut usize) -> u32;

    #[link(name = "kbest_c", kind = "static")]
    extern "C" {
        pub fn kbest_version() -> u32;
        pub fn kbest_check(book: *const i32, words: usize) -> u32;
        pub fn kbest_power(d: usize, e: usize) -> u64;
        pub fn kbest_value(book: *const i32, words: usize, plan: *const u8, bytes: usize, cost: *mut i64) -> u32;
        pub fn kbest_least(book: *const i32, words: usize, cost: *mut i64) -> u32;
        pub fn kbest_rank(
            book: *const i32,
            words: usize,
            k: usize,
            costs: *mut i64,
            costs_room: usize,
            plans: *mut u8,
            plans_room: usize,
            listed: *mut usize,
        ) -> u32;
        pub fn kbest_rank_small(
            book: *const i32,
            words: usize,
            k: usize,
            costs: *mut i64,
            costs_room: usize,
            plans: *mut u8,
            plans_room: usize,
            listed: *mut usize,
        ) -> u32;
        pub fn kbest_find(
            book: *const i32,
            words: usize,
            k: usize,
            plan: *const u8,
            bytes: usize,
            answer: *mut u32,
            value: *mut i64,
        ) -> u32;
        pub fn kbest_limit(
            book: *const i32,
            words: usize,
            k: usize,
            marks: *const u8,
            choices: usize,
            m: usize,
            answer: *mut u32,
            rank: *mut usize,
        ) -> u32;
        pub fn kbest_write(book: *const i32, words: usize, k: usize, record: *mut u8, room: usize, length: *mut usize) -> u32;
        pub fn kbest_accept(record: *const u8, bytes: usize, posts: *mut usize, listed: *mut usize) -> u32;
        pub fn kbest_show(record: *const u8, bytes: usize, j: usize, offset: *mut usize, length: *mut usize);
        pub fn kbest_convert(table: *const i32, words: usize, book: *mut i32, room: usize, length: *mut usize) -> u32;
        pub fn kbest_desk_fresh() -> Desk;
        pub fn kbest_desk_open(desk: *mut Desk, record: *const u8, bytes: usize) -> u32;
        pub fn kbest_desk_ask(desk: *mut Desk, rider: usize, rank: usize) -> u32;
        pub fn kbest_desk_commit(desk: *mut Desk, rider: usize) -> u32;
        pub fn kbest_desk_cancel(desk: *mut Desk, rider: usize) -> u32;
        pub fn kbest_desk_held(desk: *const Desk, rider: usize) -> usize;
        pub fn kbest_desk_committed(desk: *const Desk, rider: usize) -> usize;
    }
}

/// The first question that is answered no.
#[derive(Clone, Copy, Debug, PartialEq, Eq)]
pub struct Refused(NonZeroU32);

impl Refused {
    /// From 1 to 30.
    pub fn number(self) -> u32 {
        self.0.get()
    }

    /// The question's text.
    pub fn question(self) -> &'static str {
        QUESTIONS.get(self.number() as usize - 1).copied().unwrap_or("")
    }
}

impl fmt::Display for Refused {
    fn fmt(&self, f: &mut fmt::Formatter<'_>) -> fmt::Result {
        write!(f, "refused {}: {}", self.number(), self.question())
    }
}

impl std::error::Error for Refused {}

/// Where a plan stands in a list. For any plan of the book exactly one of the three is true.
#[derive(Clone, Copy, Debug, PartialEq, Eq)]
pub enum Standing {
    /// It is listed: its rank, from 1.
    Listed(usize),
    /// It is not listed and costs more than the last listed plan: by how much exactly, over D^H, at least 1.
    CostsMore(i64),
    /// It is not listed and costs the same as the last listed plan: the first post, from 0, where the two differ, at which it takes the higher choice.
    TakesHigher(usize),
}

/// The first listed plan none of whose days makes more than m marked choices.
#[derive(Clone, Copy, Debug, PartialEq, Eq)]
pub enum Kept {
    /// There is one: its rank, from 1.
    Rank(usize),
    /// As many plans as were asked for are listed, and none of them keeps the limit.
    NoneInList,
    /// Fewer are listed, so every plan of the book, and none keeps the limit.
    NoneInBook,
}

/// What a record carries.
#[derive(Clone, Copy, Debug, PartialEq, Eq)]
pub struct Accepted {
    /// S, the posts of its book.
    pub posts: usize,
    /// How many plans it lists.
    pub listed: usize,
}

/// Which rank of one accepted record is whose. Only the calls below make and change a desk, so on an opened desk no rank is held or committed for two
/// riders, and a rider who was granted a rank can commit, whatever is done for others, until they cancel, commit or are granted another, or the desk is
/// opened anew. A copy is another desk.
#[repr(C)]
#[derive(Clone, Copy, Debug, PartialEq, Eq)]
pub struct Desk {
    k: u8,
    held: [u8; RIDERS],
    committed: [u8; RIDERS],
}

fn answer<T>(number: u32, figure: T) -> Result<T, Refused> {
    match NonZeroU32::new(number) {
        None => Ok(figure),
        Some(n) => Err(Refused(n)),
    }
}

// In each call below the pointers and lengths are those of live slices, figures and desks; what is written is borrowed for that alone, so nothing
// overlaps, and no other thread has it.

/// The version of the library that is linked, as a number.
pub fn version() -> u32 {
    unsafe { c::kbest_version() }
}

/// Checks a book: questions 1 to 13.
pub fn check(book: &[i32]) -> Result<(), Refused> {
    answer(unsafe { c::kbest_check(book.as_ptr(), book.len()) }, ())
}

/// d^e for d from 1 to 100 and e from 0 to 8; 0 for any other.
#[inline]
pub fn power(d: usize, e: usize) -> u64 {
    unsafe { c::kbest_power(d, e) }
}

/// The cost of one plan: questions 1 to 13, then 17. In a book that has no plan every slice gets 17.
pub fn value(book: &[i32], plan: &[u8]) -> Result<i64, Refused> {
    let mut cost = 0;
    let no = unsafe { c::kbest_value(book.as_ptr(), book.len(), plan.as_ptr(), plan.len(), &mut cost) };
    answer(no, cost)
}

/// The least cost of all plans: questions 1 to 13, then 28.
pub fn least(book: &[i32]) -> Result<i64, Refused> {
    let mut cost = 0;
    let no = unsafe { c::kbest_least(book.as_ptr(), book.len(), &mut cost) };
    answer(no, cost)
}

fn list(call: c::Rank, book: &[i32], k: usize, costs: &mut [i64], plans: &mut [u8]) -> Result<usize, Refused> {
    let mut listed = 0;
    let no = unsafe {
        call(
            book.as_ptr(),
            book.len(),
            k,
            costs.as_mut_ptr(),
            costs.len(),
            plans.as_mut_ptr(),
            plans.len(),
            &mut listed,
        )
    };
    answer(no, listed)
}

/// Lists the k best plans in the two slices and gives how many there are: questions 1 to 14, then 28, 15 and 16. Plan j fills the S bytes from j × S. It is
/// for any book; one of a few plans is for `rank_small`.
pub fn rank(book: &[i32], k: usize, costs: &mut [i64], plans: &mut [u8]) -> Result<usize, Refused> {
    list(c::kbest_rank, book, k, costs, plans)
}

/// The same list for a book with at most `SMALL_MOST` plans, by going through all of them: questions 1 to 14, then 28, 30, 15 and 16. What is accepted gets
/// exactly what `rank` gives. It is for books of a few plans: its time grows with the number of plans, and `docs/PERFORMANCE.md` says up to how many it is the
/// faster of the two. Where most books are small a caller may call it first, and `rank` where it is refused with 30; until it is, some rankings could have
/// been made.
pub fn rank_small(book: &[i32], k: usize, costs: &mut [i64], plans: &mut [u8]) -> Result<usize, Refused> {
    list(c::kbest_rank_small, book, k, costs, plans)
}

/// Where a plan stands in the list of the k best plans, that of `rank`: questions 1 to 14, then 28 and 17.
pub fn find(book: &[i32], k: usize, plan: &[u8]) -> Result<Standing, Refused> {
    let (mut said, mut value) = (0, 0);
    let no = unsafe { c::kbest_find(book.as_ptr(), book.len(), k, plan.as_ptr(), plan.len(), &mut said, &mut value) };
    // a rank or a post is from 0 to 64; what is made here of a refusal is dropped
    let standing = match said {
        c::LISTED => Standing::Listed(value as usize),
        c::COSTS_MORE => Standing::CostsMore(value),
        _ => Standing::TakesHigher(value as usize),
    };
    answer(no, standing)
}

/// The first plan none of whose days makes more than m marked choices, in the list of the k best plans, that of `rank`: questions 1 to 14, then 28 and 29.
/// There is one mark, 1 or 0, for each choice of the book in the book's order, closed ones and those at the last stage too; m is from 0 to 9.
pub fn limit(book: &[i32], k: usize, marks: &[u8], m: usize) -> Result<Kept, Refused> {
    let (mut said, mut rank) = (0, 0);
    let no = unsafe { c::kbest_limit(book.as_ptr(), book.len(), k, marks.as_ptr(), marks.len(), m, &mut said, &mut rank) };
    // what is made here of a refusal is dropped
    let kept = match said {
        c::KEPT => Kept::Rank(rank),
        c::NONE_IN_LIST => Kept::NoneInList,
        _ => Kept::NoneInBook,
    };
    answer(no, kept)
}

/// Writes the record of a book and k to the front of the slice and gives its length: questions 1 to 14, then 28 and 18.
pub fn write(book: &[i32], k: usize, record: &mut [u8]) -> Result<usize, Refused> {
    let mut length = 0;
    let no = unsafe { c::kbest_write(book.as_ptr(), book.len(), k, record.as_mut_ptr(), record.len(), &mut length) };
    answer(no, length)
}

/// Accepts a record: question 19, then 1 to 14 and 28 of what it carries, 20 and 21.
pub fn accept(record: &[u8]) -> Result<Accepted, Refused> {
    let (mut posts, mut listed) = (0, 0);
    let no = unsafe { c::kbest_accept(record.as_ptr(), record.len(), &mut posts, &mut listed) };
    answer(no, Accepted { posts, listed })
}

/// Plan j as a part of the record; empty where the record is not accepted or lists no plan j.
pub fn show(record: &[u8], j: usize) -> &[u8] {
    let (mut offset, mut length) = (0, 0);
    unsafe { c::kbest_show(record.as_ptr(), record.len(), j, &mut offset, &mut length) };
    &record[offset..offset + length]
}

/// Writes the book of a planners' table to the front of the slice and gives its length in words: questions 25 to 27, then 1 to 13 of the book. Its plans are
/// the table's policies: a byte for the first state, then one for each of the n states of every later stage; the cost of each is minus its expected total
/// reward, over D^H. `BOOK_MOST` words hold every book that is accepted; with fewer than `TABLE_BOOK_MOST` a table whose book is too long gets 27, and else
/// the number of the book.
pub fn convert(table: &[i32], book: &mut [i32]) -> Result<usize, Refused> {
    let mut length = 0;
    let no = unsafe { c::kbest_convert(table.as_ptr(), table.len(), book.as_mut_ptr(), book.len(), &mut length) };
    answer(no, length)
}

/// What a look-up gives has 0 for no rank.
fn some_rank(rank: usize) -> Option<usize> {
    (rank != 0).then_some(rank)
}

impl Desk {
    /// A desk that no record was opened at: every rank is refused with 23.
    pub fn fresh() -> Desk {
        unsafe { c::kbest_desk_fresh() }
    }

    /// Opens the desk, also anew, with a record: the questions of `accept`. It then has the record's k, and nothing is held or committed.
    pub fn open(&mut self, record: &[u8]) -> Result<(), Refused> {
        answer(unsafe { c::kbest_desk_open(self, record.as_ptr(), record.len()) }, ())
    }

    /// Holds a rank, 1 to k, for a rider: questions 22 to 24. Another rank that the rider held is free again; they may ask for the same once more.
    pub fn ask(&mut self, rider: usize, rank: usize) -> Result<(), Refused> {
        answer(unsafe { c::kbest_desk_ask(self, rider, rank) }, ())
    }

    /// Makes the rank that a rider holds theirs and ends the hold: questions 22 and 24.
    pub fn commit(&mut self, rider: usize) -> Result<(), Refused> {
        answer(unsafe { c::kbest_desk_commit(self, rider) }, ())
    }

    /// Drops the rank that a rider holds, if any, which is free again, and never a commitment: question 22.
    pub fn cancel(&mut self, rider: usize) -> Result<(), Refused> {
        answer(unsafe { c::kbest_desk_cancel(self, rider) }, ())
    }

    /// k: how many plans the record lists, 0 before one is opened.
    pub fn count(&self) -> usize {
        self.k.into()
    }

    /// The rank that a rider holds; rank 1 is the plan that `show` has as 0.
    pub fn held(&self, rider: usize) -> Option<usize> {
        some_rank(unsafe { c::kbest_desk_held(self, rider) })
    }

    /// The rank that a rider has committed to.
    pub fn committed(&self, rider: usize) -> Option<usize> {
        some_rank(unsafe { c::kbest_desk_committed(self, rider) })
    }
}

impl Default for Desk {
    fn default() -> Desk {
        Desk::fresh()
    }
}
