//! monday: two dispatchers at one desk reserve plans of a record for their riders; prints what each call gives, and whose the ranks are then.

use kbest::{Desk, Refused};
use std::process::ExitCode;

const BOOK: [i32; 28] = [
    2, 1, 10, // D, H, L
    1, 2, // posts of each stage
    4, 1, 1, // choices of each post
    2, 0, 1, 1, 0, 1, 1, 0, 0, 0, // left column
    10, 1, 1, 12, 2, 9, 2, 20, 4, 9, // right column
];
const ASKED: usize = 4;

fn print_answer(answer: Result<(), Refused>) {
    match answer {
        Ok(()) => println!("granted"),
        Err(refused) => println!("{refused}"),
    }
}

fn ask(desk: &mut Desk, dispatcher: u32, rider: usize, rank: usize) {
    print!("dispatcher {dispatcher}: rider {rider} asks for rank {rank}: ");
    print_answer(desk.ask(rider, rank));
}

fn commit(desk: &mut Desk, dispatcher: u32, rider: usize) {
    print!("dispatcher {dispatcher}: rider {rider} commits: ");
    print_answer(desk.commit(rider));
}

fn cancel(desk: &mut Desk, dispatcher: u32, rider: usize) {
    print!("dispatcher {dispatcher}: rider {rider} cancels: ");
    print_answer(desk.cancel(rider));
}

fn reserve(desk: &mut Desk) {
    ask(desk, 1, 3, 1);
    ask(desk, 2, 7, 1); // with rider 3
    ask(desk, 2, 7, 2);
    cancel(desk, 1, 3);
    ask(desk, 2, 7, 1); // free again
    ask(desk, 1, 3, 2); // rider 7 dropped it when the other was granted
    commit(desk, 1, 3);
    commit(desk, 2, 7);
    commit(desk, 2, 7); // the hold has ended
    ask(desk, 1, 3, 3); // committed already
    ask(desk, 2, 16, 3);
    ask(desk, 1, 5, ASKED + 1);
    ask(desk, 1, 5, 3);
}

fn rank_text(rank: Option<usize>) -> String {
    rank.map_or_else(|| "-".to_string(), |r| r.to_string())
}

fn print_riders(desk: &Desk) {
    for rider in 0..kbest::RIDERS {
        let (held, committed) = (desk.held(rider), desk.committed(rider));
        if held.is_some() || committed.is_some() {
            println!("rider {rider}: held {} committed {}", rank_text(held), rank_text(committed));
        }
    }
}

fn run() -> Result<(), Refused> {
    let mut room = [0; kbest::RECORD_MOST];
    let length = kbest::write(&BOOK, ASKED, &mut room)?;
    let mut desk = Desk::fresh();
    desk.open(&room[..length])?;
    println!("opened: {} plans", desk.count());
    reserve(&mut desk);
    print_riders(&desk);
    Ok(())
}

fn main() -> ExitCode {
    match run() {
        Ok(()) => ExitCode::SUCCESS,
        Err(refused) => {
            eprintln!("{refused}");
            ExitCode::FAILURE
        }
    }
}
