//! example FILE: lists the three best plans of a book, also as a screen does, says where plans stand and which keep a limit, files the record in FILE, reads
//! the file again and prints what it lists.

use std::error::Error;
use std::path::{Path, PathBuf};
use std::process::ExitCode;
use std::{env, fs, io};

use kbest::{Kept, Standing};

const BOOK: [i32; 22] = [
    2, 1, 7, // D, H, L
    1, 2, // posts of each stage
    2, 1, 1, // choices of each post
    2, 0, 1, 1, 0, 0, 0, // left column
    10, 1, 1, 12, 2, 4, 9, // right column
];
const POSTS: usize = 3;
const ASKED: usize = 3;
const TOO_MANY_PLANS: u32 = 30;

fn check_number(book: &[i32]) -> u32 {
    kbest::check(book).map_or_else(|refused| refused.number(), |()| 0)
}

fn print_plan(rank: usize, cost: i64, plan: &[u8]) {
    print!("{rank} {cost}");
    for &choice in plan {
        if choice == kbest::NOT_REACHED {
            print!(" -");
        } else {
            print!(" {choice}");
        }
    }
    println!();
}

fn print_list() -> Result<(), kbest::Refused> {
    let mut costs = [0; ASKED];
    let mut plans = [0; ASKED * POSTS];
    let listed = kbest::rank(&BOOK, ASKED, &mut costs, &mut plans)?;
    println!("{listed} of {ASKED}, scale {}", kbest::power(2, 1));
    let listed_plans = &plans[..listed * POSTS];
    for (j, plan) in listed_plans.chunks(POSTS).enumerate() {
        print_plan(j + 1, costs[j], plan);
    }
    let last = &listed_plans[(listed - 1) * POSTS..];
    println!("least {}, last {}", kbest::least(&BOOK)?, kbest::value(&BOOK, last)?);
    Ok(())
}

/// The costs of the best plans, as a screen asks for them: it does not know how many plans a book has, so it goes through them, and ranks where they are too
/// many.
fn print_screen(book: &[i32]) -> Result<(), kbest::Refused> {
    let mut costs = [0; ASKED];
    let mut plans = [0; ASKED * kbest::POSTS_MOST];
    let (way, listed) = match kbest::rank_small(book, ASKED, &mut costs, &mut plans) {
        Err(refused) if refused.number() == TOO_MANY_PLANS => ("by ranking", kbest::rank(book, ASKED, &mut costs, &mut plans)?),
        answer => ("by going through the plans", answer?),
    };
    print!("{way}, {listed} of {ASKED}:");
    for cost in &costs[..listed] {
        print!(" {cost}");
    }
    println!();
    Ok(())
}

/// A book of five posts, one a stage, with eight choices each: 8^5 plans. Choice c of each post costs c and leads to the one post of the next stage.
fn large() -> Vec<i32> {
    let (mut left, mut right) = (vec![], vec![]);
    for stage in 0..5 {
        for cost in 0..8 {
            let lines: &[(i32, i32)] = if stage < 4 { &[(1, cost), (0, 1)] } else { &[(0, cost)] };
            for (l, r) in lines {
                left.push(*l);
                right.push(*r);
            }
        }
    }
    [vec![1, 4, left.len() as i32], vec![1; 5], vec![8; 5], left, right].concat()
}

/// A book of two plans, and one with more than `kbest::SMALL_MOST`.
fn screen() -> Result<(), kbest::Refused> {
    print_screen(&BOOK)?;
    print_screen(&large())
}

fn print_standing(book: &[i32], k: usize, plan: &[u8]) -> Result<(), kbest::Refused> {
    match kbest::find(book, k, plan)? {
        Standing::Listed(rank) => println!("of {k}: rank {rank}"),
        Standing::CostsMore(amount) => println!("of {k}: costs {amount} more than the last listed"),
        Standing::TakesHigher(post) => println!("of {k}: costs the same as the last listed, takes the higher choice at post {post}"),
    }
    Ok(())
}

/// The second plan of the list, in that list and in the list of one; and the first, where the last cost is made 8, so that both cost the same.
fn find() -> Result<(), kbest::Refused> {
    let (first, second) = ([1, 0, kbest::NOT_REACHED], [0; POSTS]);
    let mut tied = BOOK;
    tied[BOOK.len() - 1] = 8;
    print_standing(&BOOK, ASKED, &second)?;
    print_standing(&BOOK, 1, &second)?;
    print_standing(&tied, 1, &first)
}

fn print_kept(k: usize, marks: &[u8], m: usize) -> Result<(), kbest::Refused> {
    match kbest::limit(&BOOK, k, marks, m)? {
        Kept::Rank(rank) => println!("at most {m} marked, of {k}: rank {rank}"),
        Kept::NoneInList => println!("at most {m} marked, of {k}: none in the list"),
        Kept::NoneInBook => println!("at most {m} marked, of {k}: none in the book"),
    }
    Ok(())
}

/// The choice that the first plan takes at post 0 is marked: the second keeps off it. Then every choice is, and every day makes two.
fn limit() -> Result<(), kbest::Refused> {
    let (one, all) = ([0, 1, 0, 0], [1; 4]);
    print_kept(ASKED, &one, 0)?;
    print_kept(1, &one, 0)?;
    print_kept(ASKED, &all, 1)
}

fn named(path: &Path, error: io::Error) -> String {
    format!("{}: {error}", path.display())
}

fn file_record(path: &Path) -> Result<(), Box<dyn Error>> {
    let mut room = [0; kbest::RECORD_MOST];
    let length = kbest::write(&BOOK, ASKED, &mut room)?;
    fs::write(path, &room[..length]).map_err(|error| named(path, error))?;
    println!("filed {length} bytes");
    Ok(())
}

/// A record has W in its first four bytes and cost j at 12 + 4W + 8j, low byte first.
fn cost_of(record: &[u8], j: usize) -> i64 {
    let mut words = [0; 4];
    words.copy_from_slice(&record[..4]);
    let at = 12 + 4 * u32::from_le_bytes(words) as usize + 8 * j;
    let mut cost = [0; 8];
    cost.copy_from_slice(&record[at..at + 8]);
    i64::from_le_bytes(cost)
}

fn print_record(path: &Path) -> Result<(), Box<dyn Error>> {
    let record = fs::read(path).map_err(|error| named(path, error))?;
    let found = kbest::accept(&record)?;
    println!("accepted: {} posts, {} plans", found.posts, found.listed);
    for j in 0..found.listed {
        print_plan(j + 1, cost_of(&record, j), kbest::show(&record, j));
    }
    Ok(())
}

fn run(path: &Path) -> Result<(), Box<dyn Error>> {
    println!("check {}, of two words {}", check_number(&BOOK), check_number(&BOOK[..2]));
    print_list()?;
    screen()?;
    find()?;
    limit()?;
    file_record(path)?;
    print_record(path)
}

fn main() -> ExitCode {
    let arguments: Vec<PathBuf> = env::args_os().skip(1).map(PathBuf::from).collect();
    let [path] = arguments.as_slice() else {
        eprintln!("usage: example FILE");
        return ExitCode::from(2);
    };
    match run(path) {
        Ok(()) => ExitCode::SUCCESS,
        Err(error) => {
            eprintln!("{error}");
            ExitCode::FAILURE
        }
    }
}
