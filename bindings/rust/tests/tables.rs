//! Prints the version, the limits and the questions as the wrapper has them, for build.sh to compare with those of the header.

use kbest::*;

fn main() {
    println!("version {VERSION_TEXT} {VERSION}, library {}", version());
    println!("most {BOOK_MOST} {POSTS_MOST} {PLANS_MOST} {RECORD_MOST}");
    println!("most of small books {SMALL_MOST}");
    println!("most of tables {TABLE_MOST} {TABLE_BOOK_MOST}");
    println!("riders {RIDERS}");
    println!("not reached {NOT_REACHED}");
    println!("closed {CLOSED}");
    for (i, question) in QUESTIONS.iter().enumerate() {
        println!("refused {}: {question}", i + 1);
    }
}
