//! planners: makes a book of a planners' table and lists the table's policies by their expected total reward.

use kbest::Refused;
use std::process::ExitCode;

/// The two states of source document 001, without closing rewards.
const TABLE: [i32; 33] = [
    10, 1, 2, 0, 13, // D, H, n, the first state, L
    2, 2, // choices of each state
    2, 0, 1, 1, 1, 2, 0, 1, 2, 0, 1, 0, 0, // left column
    5, 5, 5, 10, 10, -1, 8, 2, 1, 1, 9, 0, 0, // right column
];
const POSTS: usize = 3;
const ASKED: usize = 3;

/// A reward is minus the cost.
fn print_policy(rank: usize, cost: i64, policy: &[u8]) {
    print!("{rank} {}", -cost);
    for &choice in policy {
        if choice == kbest::NOT_REACHED {
            print!(" -");
        } else {
            print!(" {choice}");
        }
    }
    println!();
}

fn print_list(book: &[i32]) -> Result<(), Refused> {
    let mut costs = [0; ASKED];
    let mut plans = [0; ASKED * POSTS];
    let listed = kbest::rank(book, ASKED, &mut costs, &mut plans)?;
    println!("{listed} of {ASKED}, scale {}", kbest::power(10, 1));
    for (j, policy) in plans[..listed * POSTS].chunks(POSTS).enumerate() {
        print_policy(j + 1, costs[j], policy);
    }
    Ok(())
}

fn run() -> Result<(), Refused> {
    let mut room = [0; kbest::BOOK_MOST];
    let length = kbest::convert(&TABLE, &mut room)?;
    println!("book of {length} words");
    print_list(&room[..length])?;
    if let Err(refused) = kbest::convert(&TABLE[..TABLE.len() - 1], &mut room) {
        println!("without its last word: {refused}");
    }
    Ok(())
}

fn main() -> ExitCode {
    match run() {
        Ok(()) => ExitCode::SUCCESS,
        Err(refused) => {
            eprintln!("{refused}");
            ExitCode::FAILURE
        }
    }
}
